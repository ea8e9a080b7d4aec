// accepted; args | |
/* 2D convolution 5x5 with edges clamped. */
#include "tapir.h"
#define W 40
#define H 30
#define K 5
int64_t image[H][W], out[H][W];
int kern[K][K];

static int64_t clamp(int64_t v, int64_t lo, int64_t hi) {
    return v < lo ? lo : v > hi ? hi : v;
}

int64_t kernel(void) {
    PARALLEL_FOR(y, 0, H)
        for (int64_t x = 0; x < W; x++) {
            int64_t s = 0;
            for (int64_t ky = 0; ky < K; ky++)
                for (int64_t kx = 0; kx < K; kx++)
                    s += kern[ky][kx] * image[clamp(y + ky - K / 2, 0, H - 1)][clamp(x + kx - K / 2, 0, W - 1)];
            out[y][x] = s >> 4;
        }
    return out[0][0];
}
