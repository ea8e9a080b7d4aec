// error line 4
#include "tapir.h"
int64_t a[64];
int64_t kernel(void) { int64_t s = 0; for (int64_t *p = a; p < a + 64; p++) s += *p; return s; }
