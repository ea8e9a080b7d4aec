// error line 5
#include "tapir.h"
static int64_t f(int64_t n) { return n; }
int64_t kernel(int64_t n) {
    int64_t (*g)(int64_t) = n ? f : 0;
    return g(n);
}
