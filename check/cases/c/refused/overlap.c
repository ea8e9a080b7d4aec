// refused 602 line 5
#include "tapir.h"
int64_t a[65];
int64_t kernel(void) {
    PARALLEL_FOR(i, 0, 64)
        a[i] = a[i + 1];
    return a[0];
}
