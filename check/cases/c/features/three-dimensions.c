// accepted; args 0 | 3 | 8
#include "tapir.h"
int64_t a[8][8][8];
int64_t kernel(int64_t n) {
    REQUIRES(0 <= n && n <= 8);
    PARALLEL_FOR(i, 0, n)
        PARALLEL_FOR(j, 0, n)
            PARALLEL_FOR(k, 0, n)
                a[i][j][k] += i + j * k;
    return a[1][2][3];
}
