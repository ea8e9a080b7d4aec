// refused 504 line 5; says add REQUIRES(
#include "tapir.h"
int64_t kernel(int64_t n) {
    int64_t one = 1;
    return one << n;
}
