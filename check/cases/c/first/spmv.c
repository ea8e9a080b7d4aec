// refused 501 line 10
#include "tapir.h"
#define N 32
#define NNZ 128
int64_t start[N + 1], col[NNZ], val[NNZ], x[N], y[N];
int64_t kernel(void) {
    PARALLEL_FOR(i, 0, N) {
        int64_t s = 0;
        for (int64_t k = start[i]; k < start[i + 1]; k++)
            s += val[k] * x[col[k]];
        y[i] = s;
    }
    return y[0];
}
