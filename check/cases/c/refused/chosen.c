// error line 4
#include "tapir.h"
int64_t a[8], b[8];
int64_t kernel(int64_t n) { int64_t *p = n ? a : b; return p[0]; }
