// error line 5
#include "tapir.h"
static int64_t odd(int64_t n);
static int64_t even(int64_t n) { return n == 0 ? 1 : odd(n - 1); }
static int64_t odd(int64_t n) { return n == 0 ? 0 : even(n - 1); }
int64_t kernel(int64_t n) { return even(n); }
