// refused 508 line 6; says test
#include "tapir.h"
int64_t a[64], at;
int64_t kernel(void) {
    int64_t k = at;
    KEEPS(0 <= k && k <= 63);
    return a[k];
}
