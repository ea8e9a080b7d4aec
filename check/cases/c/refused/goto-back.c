// refused 702 line 6
#include "tapir.h"
int64_t kernel(int64_t n) {
    REQUIRES(0 <= n && n <= 10);
    int64_t s = 0, k = 0;
    goto start;
again:
    s += k * 3;
    k++;
start:
    if (k < n) goto again;
    return s;
}
