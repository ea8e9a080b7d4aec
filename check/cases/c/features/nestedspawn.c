// accepted
#include "tapir.h"
int64_t a[64][8];
int64_t kernel(void) {
    PARALLEL_FOR(i, 0, 64) {
        SPAWN { for (int j = 0; j < 4; j++) a[i][j] = i + j; }
        for (int j = 4; j < 8; j++) a[i][j] = i - j;
        SYNC;
        a[i][0] += a[i][7];
    }
    return a[5][0];
}
