// accepted
#include "tapir.h"
int64_t a[1024], b[1024];
static int64_t dot(int64_t lo, int64_t hi) {
    REQUIRES(0 <= lo && lo <= hi && hi <= 1024);
    int64_t s = 0;
    for (int64_t i = lo; i < hi; i++)
        s += a[i] * b[i];
    return s;
}
int64_t kernel(void) {
    int64_t x, y;
    SPAWN { x = dot(0, 512); }
    y = dot(512, 1024);
    SYNC;
    return x + y;
}
