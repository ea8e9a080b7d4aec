// accepted
#include "tapir.h"
#define N 16
int64_t d[N][N];
int64_t kernel(void) {
    for (int k = 0; k < N; k++)
        for (int i = 0; i < N; i++)
            for (int j = 0; j < N; j++) {
                int64_t t = d[i][k] + d[k][j];
                if (t < d[i][j])
                    d[i][j] = t;
            }
    return d[0][N - 1];
}
