// accepted; args 4 | 6 | 8
/* The solutions of the n queens problem, a child for each square that is free. */
#include "tapir.h"
int64_t count;
static void place(int64_t n, int64_t rows, int64_t cols, int64_t up, int64_t down) {
    REQUIRES(1 <= n && n <= 8 && 0 <= rows && rows <= 8);
    if (rows == 0) {
        ADD(&count, 1);
        return;
    }
    for (int64_t i = 0; i < n; i++) {
        int64_t bit = (int64_t)1 << i;
        if (((cols | up | down) & bit) == 0)
            SPAWN { place(n, rows - 1, cols | bit, (up | bit) << 1, (down | bit) >> 1); }
    }
    SYNC;
}
int64_t kernel(int64_t n) {
    REQUIRES(1 <= n && n <= 8);
    count = 0;
    place(n, n, 0, 0, 0);
    return count;
}

#ifdef NATIVE
#include <stdio.h>
int main(void) {
    printf("%lld\n", (long long)kernel(8));
}
#endif
