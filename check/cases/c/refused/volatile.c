// error line 4
#include "tapir.h"
volatile int64_t a;
int64_t kernel(int64_t n) { a = n; return n; }
