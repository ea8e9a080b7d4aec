// refused 703 line 18
/* Dot product of two arrays, range halved down to small pieces. */
#include "tapir.h"
#define N 1024
#define LEAF 32
int64_t x[N], y[N];

static int64_t dot(int64_t lo, int64_t hi) {
    REQUIRES(0 <= lo && lo <= hi && hi <= N);
    if (hi - lo <= LEAF) {
        int64_t s = 0;
        for (int64_t i = lo; i < hi; i++)
            s += x[i] * y[i];
        return s;
    }
    int64_t mid = (lo + hi) / 2;
    int64_t left, right;
    SPAWN { left = dot(lo, mid); }
    right = dot(mid, hi);
    SYNC;
    return left + right;
}

int64_t kernel(int64_t n) {
    REQUIRES(0 <= n && n <= N);
    return dot(0, n);
}
