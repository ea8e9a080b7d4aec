// refused 602 line 5
#include "tapir.h"
int64_t a[64];
int64_t kernel(void) {
    PARALLEL_FOR(i, 0, 64) a[0] = i;
    return a[0];
}
