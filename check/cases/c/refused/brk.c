// error line 5
#include "tapir.h"
int64_t a[64];
int64_t kernel(int64_t n) {
    PARALLEL_FOR(i, 0, 64) { a[i] = 1; if (n == i) break; }
    return n;
}
