// refused 602 line 7
#include "tapir.h"
static int64_t f(int64_t n) { return n + 1; }
int64_t kernel(int64_t n) {
    int64_t x;
    SPAWN { x = f(n); }
    return x;
}
