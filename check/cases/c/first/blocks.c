// accepted; args | |
/* Transpose of a 64 by 64 matrix by 8 by 8 blocks. */
#include "tapir.h"
#define N 64
#define B 8
int64_t a[N][N], t[N][N];

static void block(int64_t bi, int64_t bj) {
    REQUIRES(0 <= bi && bi < N / B && 0 <= bj && bj < N / B);
    for (int64_t i = bi * B; i < (bi + 1) * B; i++)
        for (int64_t j = bj * B; j < (bj + 1) * B; j++)
            t[i][j] = a[j][i];
}

int64_t kernel(void) {
    PARALLEL_FOR(bi, 0, N / B)
        for (int64_t bj = 0; bj < N / B; bj++)
            block(bi, bj);
    return t[1][0];
}
