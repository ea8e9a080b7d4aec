// error line 4
#include "tapir.h"
int64_t puts_it(int64_t);
int64_t kernel(int64_t n) { return puts_it(n); }
