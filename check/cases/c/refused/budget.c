// refused 702 line 8; says WHILE_AT_MOST
#include "tapir.h"
int64_t a[8];
static int64_t sum(int64_t n) {
    REQUIRES(0 <= n && n <= 8);
    BUDGET(0, 20);
    int64_t s = 0;
    for (int64_t i = 0; i < n; i++)
        s += a[i];
    return s;
}
int64_t kernel(int64_t n) {
    REQUIRES(0 <= n && n <= 8);
    return sum(n);
}
