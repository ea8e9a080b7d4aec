// accepted; args 0 | 100 | 1024
/* Inclusive prefix sums in place, in three phases over blocks. */
#include "tapir.h"
#define N 1024
#define B 64
int64_t a[N], block[N / B];

int64_t kernel(int64_t n) {
    REQUIRES(0 <= n && n <= N);
    int64_t blocks = (n + B - 1) / B;
    PARALLEL_FOR(b, 0, blocks) {
        int64_t lo = b * B, hi = lo + B < n ? lo + B : n;
        for (int64_t i = lo + 1; i < hi; i++)
            a[i] += a[i - 1];
        block[b] = a[hi - 1];
    }
    int64_t sum = 0;
    for (int64_t b = 0; b < blocks; b++) {
        int64_t t = block[b];
        block[b] = sum;
        sum += t;
    }
    PARALLEL_FOR(b, 0, blocks) {
        int64_t lo = b * B, hi = lo + B < n ? lo + B : n;
        for (int64_t i = lo; i < hi; i++)
            a[i] += block[b];
    }
    return sum;
}
