// refused 602 line 6
#include "tapir.h"
int64_t a[64];
int64_t kernel(void) {
    int64_t sum = 0;
    PARALLEL_FOR(i, 0, 64)
        sum += a[i];
    return sum;
}
