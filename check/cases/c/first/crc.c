// accepted; args 0 | 9 | 64
#include "tapir.h"
int64_t data[64], table[256];
int64_t kernel(int64_t n) {
    REQUIRES(n >= 0 && n <= 64);
    PARALLEL_FOR(i, 0, 256) {
        uint64_t c = i;
        for (int k = 0; k < 8; k++)
            c = (c & 1) ? 0xEDB88320u ^ (c >> 1) : c >> 1;
        table[i] = c;
    }
    uint64_t crc = 0xFFFFFFFFu;
    for (int64_t i = 0; i < n; i++)
        crc = table[(crc ^ data[i]) & 255] ^ (crc >> 8);
    return crc ^ 0xFFFFFFFFu;
}
