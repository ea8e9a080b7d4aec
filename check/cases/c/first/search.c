// accepted; args 1 1 | 300 2 | 1000 4; cells 0 3
/* All places of a pattern in a text; the first of them, or -1. */
#include "tapir.h"
#define N 1024
#define M 16
int text[N], pattern[M];
int64_t found[N];

static bool at(int64_t i, int64_t m) {
    REQUIRES(0 <= i && 0 <= m && m <= M && i + m <= N);
    for (int64_t j = 0; j < m; j++)
        if (text[i + j] != pattern[j])
            return false;
    return true;
}

int64_t kernel(int64_t n, int64_t m) {
    REQUIRES(0 <= n && n <= N && 1 <= m && m <= M && m <= n);
    PARALLEL_FOR_HALVES(i, 0, n - m + 1)
        found[i] = at(i, m);
    for (int64_t i = 0; i <= n - m; i++)
        if (found[i])
            return i;
    return -1;
}
