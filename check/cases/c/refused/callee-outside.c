// refused 604 line 11; says name the cells in READS, WRITES or ADDS of the function
#include "tapir.h"
int64_t a[8];
static void put(int64_t i) {
    REQUIRES(0 <= i && i < 8);
    a[i] = 1;
}
static void all(int64_t i) {
    REQUIRES(0 <= i && i < 8);
    WRITES(a, 0, i);
    put(i);
}
int64_t kernel(int64_t n) {
    REQUIRES(0 <= n && n < 8);
    all(n);
    return a[0];
}
