// accepted; args 0 | 31 | 64
#include "tapir.h"
int64_t a[64], b[64];
static void part(int64_t p[static 64], const int64_t q[static 64], int64_t lo, int64_t hi) {
    REQUIRES(0 <= lo && lo <= hi && hi <= 64);
    WRITES(p, lo, hi);
    READS(q, 0, 64);
    for (int64_t i = lo; i < hi; i++)
        p[i] = q[63 - i] + q[i];
}
int64_t kernel(int64_t n) {
    REQUIRES(0 <= n && n <= 64);
    SPAWN {
        WRITES(a, 0, n);
        part(a, b, 0, n);
    }
    part(a, b, n, 64);
    SYNC;
    return a[7];
}
