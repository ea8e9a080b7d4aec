// error line 4
#include "tapir.h"
int64_t a[2];
void kernel(void) { a[0] = 1; }
