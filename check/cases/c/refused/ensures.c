// refused 507 line 6; says add REQUIRES(n <= 8) to next
#include "tapir.h"
static int64_t next(int64_t n) {
    REQUIRES(0 <= n && n <= 9);
    ENSURES(RESULT <= 9);
    return n + 1;
}
int64_t kernel(int64_t n) {
    REQUIRES(0 <= n && n <= 9);
    return next(n);
}
