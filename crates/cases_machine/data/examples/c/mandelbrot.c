// accepted
/* The Mandelbrot set in whole numbers (4,096 is 1), a child for each row. */
#include "tapir.h"
#define W 32
#define H 32
#define MAXIT 100
int64_t image[H][W];
int64_t kernel(void) {
    PARALLEL_FOR(r, 0, H) {
        for (int64_t c = 0; c < W; c++) {
            int64_t cr = (c * 12 - 256) * 256 / 16, ci = (r * 8 - 128) * 256 / 16;
            int64_t x = 0, y = 0, it = 0;
            while (it < MAXIT && x * x + y * y <= 4 * 4096 * 4096) {
                int64_t t = (x * x - y * y) / 4096 + cr;
                y = 2 * x * y / 4096 + ci;
                x = t;
                it++;
            }
            image[r][c] = it;
        }
    }
    return image[16][16];
}

#ifdef NATIVE
#include <stdio.h>
int main(void) {
    printf("%lld\n", (long long)kernel());
}
#endif
