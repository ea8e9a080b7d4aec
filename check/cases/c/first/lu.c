// accepted
#include "tapir.h"
#define N 8
#define P 997
int64_t a[N][N];
static int64_t inverse(int64_t x) {
    int64_t r = 1, e = P - 2;
    for (int k = 0; k < 10; k++) {
        if (e >> k & 1)
            r = r * x % P;
        x = x * x % P;
    }
    return r;
}
int64_t kernel(void) {
    for (int64_t k = 0; k < N; k++) {
        int64_t inv = inverse(a[k][k]);
        PARALLEL_FOR(i, k + 1, N) {
            a[i][k] = a[i][k] * inv % P;
            for (int64_t j = k + 1; j < N; j++)
                a[i][j] = (a[i][j] - a[i][k] * a[k][j]) % P;
        }
    }
    return a[N - 1][N - 1];
}
