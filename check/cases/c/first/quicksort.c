// accepted; args 1 | 64 | 33
#include "tapir.h"
int64_t a[64];
static void qs(int64_t lo, int64_t hi, int64_t depth) {
    REQUIRES(0 <= lo && lo <= hi && hi <= 64 && 0 <= depth && depth <= 10);
    if (hi - lo < 2 || depth == 0) return;
    int64_t p = a[hi - 1], m = lo;
    for (int64_t i = lo; i < hi - 1; i++)
        if (a[i] < p) {
            int64_t t = a[i];
            a[i] = a[m];
            a[m] = t;
            m++;
        }
    a[hi - 1] = a[m];
    a[m] = p;
    SPAWN { qs(lo, m, depth - 1); }
    qs(m + 1, hi, depth - 1);
    SYNC;
}
int64_t kernel(int64_t n) {
    REQUIRES(n >= 0 && n <= 64);
    qs(0, n, 10);
    return a[0];
}
