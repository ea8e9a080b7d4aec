// accepted; args 0 | 1 | 10; cells 0 1
#include "tapir.h"
#define N 16
int64_t cur[N][N], next[N][N];
static void step(int64_t a[restrict static N][N], int64_t b[restrict static N][N]) {
    PARALLEL_FOR(i, 1, N - 1)
        for (int64_t j = 1; j < N - 1; j++) {
            int64_t n = a[i-1][j-1] + a[i-1][j] + a[i-1][j+1] + a[i][j-1] + a[i][j+1] + a[i+1][j-1] + a[i+1][j] + a[i+1][j+1];
            b[i][j] = n == 3 || (n == 2 && a[i][j]);
        }
}
int64_t kernel(int64_t t) {
    REQUIRES(t >= 0 && t <= 10);
    for (int64_t k = 0; k < t; k++) {
        step(cur, next);
        step(next, cur);
    }
    int64_t alive = 0;
    for (int i = 0; i < N; i++)
        for (int j = 0; j < N; j++)
            alive += cur[i][j];
    return alive;
}
