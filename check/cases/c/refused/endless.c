// refused 702 line 4
#include "tapir.h"
int64_t kernel(int64_t n) {
    while (n > 0) n = n * n - 1;
    return n;
}
