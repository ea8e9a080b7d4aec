// accepted
#include "tapir.h"
#define N 12
int a[N][N][N];
int64_t kernel(void) {
    int64_t sum = 0;
    PARALLEL_FOR(i, 0, N)
        for (int j = 0; j < N; j++)
            for (int k = 0; k < N; k++)
                a[i][j][k] = i * 100 + j * 10 + k;
    for (int i = 0; i < N; i++)
        for (int j = 0; j < N; j++)
            for (int k = 0; k < N; k++)
                sum += a[i][j][k];
    return sum;
}
