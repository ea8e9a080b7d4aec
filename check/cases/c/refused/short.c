// error line 4
#include "tapir.h"
int64_t kernel(int64_t n) {
    short c = n;
    return c;
}
