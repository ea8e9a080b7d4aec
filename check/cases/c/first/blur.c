// accepted
#include "tapir.h"
#define W 24
#define H 16
int64_t img[H * W], out[H * W];
int64_t kernel(void) {
    PARALLEL_FOR(y, 1, H - 1)
        for (int64_t x = 1; x < W - 1; x++) {
            int64_t s = 0;
            for (int64_t dy = -1; dy <= 1; dy++)
                for (int64_t dx = -1; dx <= 1; dx++)
                    s += img[(y + dy) * W + x + dx];
            out[y * W + x] = s / 9;
        }
    return out[W + 1];
}
