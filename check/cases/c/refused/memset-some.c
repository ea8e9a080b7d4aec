// error line 5; says write a loop
#include "tapir.h"
#include <string.h>
int64_t a[8];
static void first(int64_t p[static 8]) { memset(p, 0, 8); }
int64_t kernel(void) {
    first(a);
    return a[7];
}
