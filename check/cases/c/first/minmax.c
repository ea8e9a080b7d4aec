// accepted
#include "tapir.h"
int a[512];
static int imax(int x, int y) { return x > y ? x : y; }
static int64_t best(int64_t lo, int64_t hi, int depth) {
    REQUIRES(0 <= lo && lo < hi && hi <= 512 && 0 <= depth && depth <= 5);
    if (depth == 0 || hi - lo < 2) {
        int m = a[lo];
        for (int64_t i = lo + 1; i < hi; i++)
            m = imax(m, a[i]);
        return m;
    }
    int64_t mid = (lo + hi) / 2, x, y;
    SPAWN { x = best(lo, mid, depth - 1); }
    y = best(mid, hi, depth - 1);
    SYNC;
    return imax(x, y);
}
int64_t kernel(void) { return best(0, 512, 5); }
