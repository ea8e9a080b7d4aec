// error line 3
#include "tapir.h"
char s[64];
int64_t kernel(int64_t n) { s[0] = n; return n; }
