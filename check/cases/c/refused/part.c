// error line 5
#include "tapir.h"
int64_t a[64];
static void f(int64_t p[static 4]) { p[0] = 1; }
int64_t kernel(int64_t n) { f(a + 3); return n; }
