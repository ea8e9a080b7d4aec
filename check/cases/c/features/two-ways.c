// accepted; args 0 | 5 | 63
#include "tapir.h"
int64_t a[64];
int64_t kernel(int64_t n) {
    REQUIRES(n >= 0 && n <= 63);
    int64_t i = n, r = 0;
    while (1) {
        if (a[i & 63] == 3) { r = 7; break; }
        if (i <= 0) { r = 9; break; }
        i--;
    }
    return r + i;
}
