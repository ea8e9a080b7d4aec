// refused 703 line 3; says REQUIRES(0 <= depth
#include "tapir.h"
static int64_t f(int64_t n) {
    REQUIRES(0 <= n && n <= 20);
    MEASURE(n, 5);
    return n == 0 ? 0 : f(n - 1) + 1;
}
int64_t kernel(int64_t n) {
    REQUIRES(0 <= n && n <= 20);
    return f(n);
}
