// error line 5
#include "tapir.h"
int64_t a[64];
int64_t kernel(int64_t n) {
    REQUIRES(a[0] == n);
    return n;
}
