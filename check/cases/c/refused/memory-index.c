// refused 501 line 4
#include "tapir.h"
int64_t a[8], at;
int64_t kernel(void) { return a[at]; }
