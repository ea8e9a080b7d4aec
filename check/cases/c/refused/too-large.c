// error line 3
#include "tapir.h"
int64_t a[2000000];
int64_t kernel(void) { return a[5]; }
