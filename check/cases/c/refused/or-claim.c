// error line 4
#include "tapir.h"
int64_t kernel(int64_t n) {
    REQUIRES(n == 0 || n == 7);
    return n;
}
