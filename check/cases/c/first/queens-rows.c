// refused 702 line 22
#include "tapir.h"
#include <stdbool.h>
/* solutions of the n queens problem; the first row in parallel, the rest by recursion over bit sets */
int64_t found[8];
static int64_t place(int64_t full, int64_t cols, int64_t left, int64_t right, int64_t rows) {
    REQUIRES(rows >= 0 && rows <= 8);
    MEASURE(rows, 8);
    if (cols == full) return 1;
    if (rows == 0) return 0;
    int64_t n = 0;
    for (int64_t k = 0; k < 8; k++) {
        int64_t bit = (int64_t)1 << k;
        if ((full & bit) != 0 && ((cols | left | right) & bit) == 0)
            n += place(full, cols | bit, (left | bit) << 1, (right | bit) >> 1, rows - 1);
    }
    return n;
}
int64_t kernel(int64_t n) {
    REQUIRES(n >= 1 && n <= 8);
    int64_t full = ((int64_t)1 << n) - 1;
    PARALLEL_FOR(k, 0, n) {
        int64_t bit = (int64_t)1 << k;
        found[k] = place(full, bit, bit << 1, bit >> 1, n - 1);
    }
    int64_t sum = 0;
    for (int64_t k = 0; k < n; k++)
        sum += found[k];
    return sum;
}
