// accepted; args 0 | 64 | 33
#include "tapir.h"
int64_t a[64];
int64_t kernel(int64_t n) {
    REQUIRES(n >= 0 && n <= 64);
    for (int64_t i = 1; i < n; i++) {
        int64_t x = a[i], j = i - 1;
        while (j >= 0 && a[j] > x) {
            a[j + 1] = a[j];
            j--;
        }
        a[j + 1] = x;
    }
    return a[0];
}
