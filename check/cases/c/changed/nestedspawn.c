// accepted
#include "tapir.h"
int64_t a[64][8];
static void row(int64_t i) {
    REQUIRES(0 <= i && i <= 63);
        SPAWN { for (int j = 0; j < 4; j++) a[i][j] = i + j; }
        for (int j = 4; j < 8; j++) a[i][j] = i - j;
        SYNC;
        a[i][0] += a[i][7];
}
int64_t kernel(void) {
    PARALLEL_FOR(i, 0, 64) row(i);
    return a[5][0];
}
