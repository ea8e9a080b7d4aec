// error line 6; says write a loop
#include "tapir.h"
#include <string.h>
int64_t a[8];
int64_t kernel(void) {
    memset(&a[3], 0, sizeof a[3]);
    return a[0];
}
