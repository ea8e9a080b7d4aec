// accepted; cells 0 1
#include "tapir.h"
#define N 24
int64_t a[N][N], b[N], x[N];
/* forward substitution in whole numbers, the diagonal is 1 */
int64_t kernel(void) {
    for (int i = 0; i < N; i++) {
        int64_t s = b[i];
        for (int j = 0; j < i; j++)
            s -= a[i][j] * x[j];
        x[i] = s;
    }
    return x[N - 1];
}
