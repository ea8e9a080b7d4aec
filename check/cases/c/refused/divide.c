// refused 502 line 3
#include "tapir.h"
int64_t kernel(int64_t n) { return 100 / n; }
