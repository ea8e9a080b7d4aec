// accepted
/* The product of two matrices, a child for each row. */
#include "tapir.h"
#define N 8
int64_t a[N][N], b[N][N], c[N][N];
int64_t kernel(void) {
    PARALLEL_FOR(i, 0, N) {
        for (int64_t j = 0; j < N; j++) {
            int64_t s = 0;
            for (int64_t k = 0; k < N; k++)
                s += a[i][k] * b[k][j];
            c[i][j] = s;
        }
    }
    return c[N - 1][N - 1];
}

#ifdef NATIVE
#include <stdio.h>
int main(void) {
    for (int i = 0; i < N * N; i++) a[i / N][i % N] = b[i / N][i % N] = i;
    printf("%lld\n", (long long)kernel());
}
#endif
