// error line 3
#include "tapir.h"
int64_t a[8], *where;
int64_t kernel(int64_t n) { where = a; return n; }
