// accepted; args 8 8 | 256 1 | 256 3; cells 0 1
#include "tapir.h"
int64_t text[256], pat[8], at[256];
static int64_t here(int64_t i, int64_t m) {
    REQUIRES(i >= 0 && i <= 255 && m >= 1 && m <= 8 && i + m <= 256);
    for (int64_t j = 0; j < m; j++)
        if (text[i + j] != pat[j])
            return 0;
    return 1;
}
int64_t kernel(int64_t n, int64_t m) {
    REQUIRES(n >= 0 && n <= 256 && m >= 1 && m <= 8 && m <= n);
    PARALLEL_FOR(i, 0, n - m + 1)
        at[i] = here(i, m);
    int64_t count = 0;
    for (int64_t i = 0; i < n - m + 1; i++)
        count += at[i];
    return count;
}
