// error line 4
#include "tapir.h"
int64_t a[64];
int64_t kernel(int64_t n) { double x = n; a[0] = x * 2; return n; }
