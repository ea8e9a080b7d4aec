// accepted; args 0 | 4096 | 999
#include "tapir.h"
int64_t a[4096], sum;
int64_t kernel(int64_t n) {
    REQUIRES(n >= 0 && n <= 4096);
    sum = 0;
    PARALLEL_FOR_HALVES(i, 0, n)
        ADD(&sum, a[i] * a[i]);
    return sum;
}
