// refused 501 line 8
#include "tapir.h"
int64_t a[64];
int64_t kernel(int64_t n) {
    REQUIRES(n >= 0 && n <= 65);
    int64_t s = 0;
    for (int64_t i = 0; i < n; i++)
        s += a[i];
    return s;
}
