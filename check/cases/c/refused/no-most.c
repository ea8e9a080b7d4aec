// refused 704 line 4; says write REQUIRES(n <= 64)
#include "tapir.h"
int64_t a[8];
int64_t kernel(int64_t n) {
    REQUIRES(0 <= n);
    int64_t s = 0;
    for (int64_t i = 0; i < n; i++)
        s += a[i & 7];
    return s;
}
