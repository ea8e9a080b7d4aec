/* A text whose names meet in the verifier's tables under one seed: it is slow to judge under that seed, and under no other one. So the tables are hashed by
 * the seed that the host gives, by both of its words. (No contract says so.)
 *
 * Usage: seeds
 * The names are sought here, by the hash that the library's tables use: SipHash-1-3 of the name's length and its bytes. Names that share the place where
 * their table begins to look, and the byte by which it tells names apart, are compared one by one. */
#include "tapirvm.h"

#include <stdint.h>
#include <stdio.h>
#include <string.h>
#include <time.h>

enum { NAMES = 3000, LETTERS = 6, FUNCTIONS = 2, TRIES = 3, ROUNDS = 5, TIMES = 2 };

/* the lowest 7 bits, and the highest byte of 32 */
static const uint32_t SHARED = UINT32_C(0xff00007f);
static const uint64_t LOW = 1, HIGH = 2;

static char names[NAMES][LETTERS + 1];
static char text[1 << 20];

static uint64_t turned(uint64_t word, int bits) { return word << bits | word >> (64 - bits); }

static void mix(uint64_t *v) {
    v[0] += v[1], v[2] += v[3];
    v[1] = turned(v[1], 13) ^ v[0], v[3] = turned(v[3], 16) ^ v[2];
    v[0] = turned(v[0], 32) + v[3], v[2] += v[1];
    v[1] = turned(v[1], 17) ^ v[2], v[3] = turned(v[3], 21) ^ v[0];
    v[2] = turned(v[2], 32);
}

static void take_word(uint64_t *v, uint64_t word) {
    v[3] ^= word;
    mix(v);
    v[0] ^= word;
}

/* The hash of a name, as 32 bits. */
static uint32_t hash_of(const char *name) {
    uint64_t v[] = {LOW ^ UINT64_C(0x736f6d6570736575), HIGH ^ UINT64_C(0x646f72616e646f6d), LOW ^ UINT64_C(0x6c7967656e657261),
                    HIGH ^ UINT64_C(0x7465646279746573)};
    uint64_t last = (uint64_t)(8 + LETTERS) << 56;
    for (int k = 0; k < LETTERS; k++) last |= (uint64_t)(unsigned char)name[k] << 8 * k;
    take_word(v, LETTERS);
    take_word(v, last);
    v[2] ^= 255;
    for (int k = 0; k < 3; k++) mix(v);
    uint64_t hash = v[0] ^ v[1] ^ v[2] ^ v[3];
    return (uint32_t)(hash ^ hash >> 32);
}

/* The next name in the order of letters. */
static void next(char *name) {
    int k = LETTERS - 1;
    while (name[k] == 'z') name[k--] = 'a';
    name[k]++;
}

static void seek_names(void) {
    char name[LETTERS + 1] = "aaaaaa";
    uint32_t first = hash_of(name) & SHARED;
    for (int found = 0; found < NAMES; next(name))
        if ((hash_of(name) & SHARED) == first) strcpy(names[found++], name);
}

/* Functions that add 1 again and again, each time under another name. */
static size_t write_text(void) {
    size_t at = 0;
    for (int f = 0; f < FUNCTIONS; f++) {
        at += (size_t)sprintf(text + at, "define i64 @f%d(i64 %%p) {\nentry:\n", f);
        for (int k = 0; k < NAMES; k++) at += (size_t)sprintf(text + at, "  %%%s = add i64 %%%s, 1\n", names[k], k ? names[k - 1] : "p");
        at += (size_t)sprintf(text + at, "  ret i64 %%%s\n}\n", names[NAMES - 1]);
    }
    return at;
}

/* The least time that the verdict takes under a seed. */
static double seconds_under(uint64_t low, uint64_t high, size_t length) {
    struct tapirvm_verdict verdict = {0};
    double least = 1e9;
    for (int k = 0; k < TRIES; k++) {
        clock_t begin = clock();
        tapirvm_verify((const uint8_t *)text, length, low, high, UINT64_C(1000000000), &verdict);
        double taken = (double)(clock() - begin) / CLOCKS_PER_SEC;
        if (taken < least) least = taken;
    }
    return least;
}

int main(void) {
    seek_names();
    size_t length = write_text();
    double met = 0, other = 0;
    /* Others may have the processors meanwhile; where seeds do not count then no round shows a difference. */
    for (int k = 0; k < ROUNDS && met <= TIMES * other; k++) {
        met = seconds_under(LOW, HIGH, length);
        double other_low = seconds_under(LOW + 1, HIGH, length), other_high = seconds_under(LOW, HIGH + 1, length);
        other = other_low > other_high ? other_low : other_high;
    }
    printf("a text of %d names that meet under one seed: its verdict takes %.3f s there, %.3f s under others\n", NAMES, met, other);
    return met <= TIMES * other;
}
