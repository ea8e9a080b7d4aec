// accepted; cells 0 31; sorted start 0 128
#include "tapir.h"
#define N 32
#define NNZ 128
int64_t start[N + 1], col[NNZ], val[NNZ], x[N], y[N];
static int64_t row(int64_t from, int64_t to) {
    REQUIRES(0 <= from && from <= to && to <= NNZ);
    int64_t s = 0;
    for (int64_t k = from; k < to; k++)
        s += val[k] * x[col[k] & (N - 1)];
    return s;
}
int64_t kernel(void) {
    PARALLEL_FOR(i, 0, N) {
        int64_t from = start[i], to = start[i + 1];
        y[i] = 0;
        if (0 <= from && from <= to && to <= NNZ)
            y[i] = row(from, to);
    }
    return y[0];
}
