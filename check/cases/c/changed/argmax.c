// accepted; args 1 | 100 | 256
/* Greatest element and its place, by halves. */
#include "tapir.h"
#define N 256
int a[N];

static int argmax(int lo, int hi, int depth) {
    REQUIRES(0 <= lo && lo < hi && hi <= N && 0 <= depth && depth <= 8);
    ENSURES(lo <= RESULT && RESULT < hi);
    if (hi - lo == 1 || depth == 0) return lo;
    int mid = lo + (hi - lo) / 2, l, r;
    SPAWN l = argmax(lo, mid, depth - 1);
    r = argmax(mid, hi, depth - 1);
    SYNC;
    l = l < lo || l >= mid ? lo : l;
    return a[l] >= a[r] ? l : r;
}

int64_t kernel(int64_t n) {
    REQUIRES(1 <= n && n <= N);
    return argmax(0, n, 8);
}
