// error line 3
#include "tapir.h"
struct { int64_t x, y; } p[8];
int64_t kernel(int64_t n) { p[n & 7].y = 1; return n; }
