// accepted; args 0 | 64 | 33
#include "tapir.h"
int64_t a[64];
int64_t kernel(int64_t n) {
    REQUIRES(n >= 0 && n <= 64);
    for (int i = 0; i < n - 1; i++)
        for (int j = 0; j < n - 1 - i; j++)
            if (a[j] > a[j + 1]) {
                int64_t t = a[j];
                a[j] = a[j + 1];
                a[j + 1] = t;
            }
    return a[0];
}
