// accepted
#include "tapir.h"
#define N 32
int64_t A[N][N], x[N], y[N];
int64_t kernel(void) {
    PARALLEL_FOR(i, 0, N) {
        y[i] = 0;
        for (int j = 0; j < N; j++)
            y[i] += A[i][j] * x[j];
    }
    return y[0];
}
