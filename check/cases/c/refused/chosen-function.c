// error line 5; says name the function
#include "tapir.h"
static int64_t f(int64_t n) { return n; }
static int64_t g(int64_t n) { return -n; }
int64_t kernel(int64_t n) { return (f, g)(n) + (0 ? f : g)(n); }
