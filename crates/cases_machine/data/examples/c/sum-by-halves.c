// accepted; args 0 | 1000 | 65536
/* The sum of the first n cells, by halves; at depth 0 a loop adds up what is left. */
#include "tapir.h"
int64_t a[65536];
static int64_t sum(int64_t lo, int64_t hi, int64_t depth) {
    REQUIRES(lo >= 0 && lo <= hi && hi <= 65536 && depth >= 0 && depth <= 7);
    int64_t x, y;
    if (depth == 0) {
        int64_t s = 0;
        for (int64_t i = lo; i < hi; i++)
            s += a[i];
        return s;
    }
    int64_t mid = lo + (hi - lo) / 2;
    SPAWN { x = sum(lo, mid, depth - 1); }
    y = sum(mid, hi, depth - 1);
    SYNC;
    return x + y;
}
int64_t kernel(int64_t n) {
    REQUIRES(n >= 0 && n <= 65536);
    return sum(0, n, 7);
}

#ifdef NATIVE
#include <stdio.h>
int main(void) {
    for (int i = 0; i < 65536; i++) a[i] = i;
    printf("%lld\n", (long long)kernel(65536));
}
#endif
