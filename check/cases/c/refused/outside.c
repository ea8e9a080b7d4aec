// refused 601 line 7; says name the cells in READS, WRITES or ADDS of the function
#include "tapir.h"
int64_t a[8];
static void put(int64_t i) {
    REQUIRES(0 <= i && i <= 6);
    WRITES(a, i, i + 1);
    a[i + 1] = 1;
}
int64_t kernel(int64_t n) {
    REQUIRES(0 <= n && n <= 6);
    put(n);
    return a[0];
}
