// refused 506 line 8
#include "tapir.h"
int64_t a[64];
static int64_t at(int64_t i) {
    REQUIRES(0 <= i && i < 64);
    return a[i];
}
int64_t kernel(int64_t n) { return at(n); }
