// accepted
#include "tapir.h"
int64_t a[8][256];
int64_t kernel(void) {
    PARALLEL_FOR(i, 0, 8)
        PARALLEL_FOR_HALVES(j, 0, 256)
            a[i][j] = 2 * a[i][j] + i;
    return a[7][255];
}
