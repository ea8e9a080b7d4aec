// error line 3
#include "tapir.h"
static void f(int64_t *p) { p[0] = 1; }
int64_t a[4];
int64_t kernel(void) {
    f(a);
    return a[0];
}
