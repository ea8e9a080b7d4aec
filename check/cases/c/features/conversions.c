// accepted; args 0 | 7 | -9223372036854775807
#include "tapir.h"
enum kind { LOW = -2, HIGH = 5, MORE };
typedef uint32_t word;
uint64_t a[8];
word b[8];
/* numbers of all widths, set by operators and steps; a size, an enumeration, and a pointer that stays */
int64_t kernel(int64_t n) {
    static int64_t calls;
    word w = n;
    int i = (int)n;
    int64_t *const count = &calls;
    enum kind k = n > 3 ? MORE : LOW;
    for (int j = 0; j < (int)(sizeof(b) / sizeof(b[0])); j++) {
        w = w * 2654435761u + j;
        b[j & 7] ^= w >> 3;
        a[j & 7] += (uint64_t)w << 32 | (word)~w;
        i ^= (int)(w & 0xff);
    }
    w -= 3000000000u;
    i |= (i > 0) + !n;
    *count += 1;
    a[1] /= 3;
    return (int64_t)a[1] + (int64_t)w - i + k + (b[2] > 0x7fffffff) + (a[3] > (uint64_t)n) + calls;
}
