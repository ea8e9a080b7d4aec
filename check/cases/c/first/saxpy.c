// accepted; args 0 3 | 100 -7 | 4096 5
#include "tapir.h"
#define N 4096
int64_t x[N], y[N];
int64_t kernel(int64_t n, int64_t a) {
    REQUIRES(n >= 0 && n <= N);
    PARALLEL_FOR_HALVES(i, 0, n)
        y[i] += a * x[i];
    return n;
}
