/* A host in C: judges a kernel that it did not write, turns it away where it is wrong or too dear, and runs it serially.
 *
 * Usage: [SECONDS=S] host FILE [ARGUMENT..] < CELLS
 * CELLS are the numbers of the globals' cells at the start, one global after another; a cell for which none is left begins as 0.
 * S is how long one call of the library may take: it asks for memory again and again, and is given none after that. For this the program is linked
 * with -Wl,--wrap=malloc -Wl,--wrap=realloc. */
#include "tapirvm.h"

#include <inttypes.h>
#include <signal.h>
#include <stdio.h>
#include <stdlib.h>
#include <sys/random.h>
#include <sys/time.h>

/* the most that this host reads (one byte past the longest text, so that a longer one is refused), and pays for */
enum { MOST_BYTES = (1 << 20) + 1, MOST_ARGUMENTS = 16, MOST_CELLS = 1 << 16, MOST_INSTRUCTIONS = 1000000, MOST_FRAMES = 1000 };

#define MOST_STEPS UINT64_C(1000000000)

static uint8_t text[MOST_BYTES];
static int64_t cells[MOST_CELLS], arguments[MOST_ARGUMENTS];
static uint64_t seed[2];

/* whether the time of a call is over */
static volatile sig_atomic_t is_late;

void *__real_malloc(size_t size);
void *__real_realloc(void *block, size_t size);
void *__wrap_malloc(size_t size) { return is_late ? NULL : __real_malloc(size); }
void *__wrap_realloc(void *block, size_t size) { return is_late ? NULL : __real_realloc(block, size); }

static void ring(int signal) {
    (void)signal;
    is_late = 1;
}

/* the time of a call begins, where one is set */
static void begin_call(void) {
    const char *seconds = getenv("SECONDS");
    double whole = seconds == NULL ? 0 : strtod(seconds, NULL);
    struct itimerval timer = {.it_value = {.tv_sec = (time_t)whole, .tv_usec = (suseconds_t)((whole - (double)(time_t)whole) * 1e6)}};
    is_late = 0;
    signal(SIGALRM, ring);
    setitimer(ITIMER_REAL, &timer, NULL);
}

/* reads the file into `text`; its length, or -1 */
static long read_text(const char *path) {
    FILE *file = fopen(path, "rb");
    if (file == NULL) return -1;
    size_t length = fread(text, 1, sizeof text, file);
    int failed = ferror(file);
    fclose(file);
    return failed ? -1 : (long)length;
}

static int run(size_t length, size_t argument_count, size_t cell_count) {
    struct tapirvm_outcome outcome = {0};
    begin_call();
    tapirvm_serial(text, length, seed[0], seed[1], MOST_STEPS, TAPIRVM_UNBOUNDED, arguments, argument_count, cells, cell_count, &outcome);
    switch (outcome.status) {
    case TAPIRVM_DONE:
        printf("result %" PRId64 "\ninstructions %" PRIu64 "\npeak %" PRIu64 "\n", outcome.result, outcome.instructions, outcome.peak);
        for (size_t k = 0; k < cell_count; k++) printf("%s%" PRId64, k == 0 ? "cells " : " ", cells[k]);
        if (cell_count > 0) printf("\n");
        return 0;
    case TAPIRVM_BAD_ARGUMENTS:
        printf("not the arguments of @main: requirement %" PRIu64 "\n", outcome.requirement);
        return 1;
    case TAPIRVM_OUT_OF_MEMORY:
        printf("out of memory or time\n");
        return 1;
    default:
        printf("status %" PRIu32 "\n", outcome.status);
        return 1;
    }
}

int main(int count, char **words) {
    if (count < 2 || count - 2 > MOST_ARGUMENTS) return 2;
    long length = read_text(words[1]);
    if (length < 0 || getentropy(seed, sizeof seed) != 0) return 2;

    struct tapirvm_verdict verdict = {0};
    begin_call();
    tapirvm_verify(text, (size_t)length, seed[0], seed[1], MOST_STEPS, &verdict);
    if (verdict.status == TAPIRVM_REFUSED) {
        printf("refused: rule %" PRIu16 ", line %" PRIu32 "\n", verdict.rule, verdict.line);
        return 1;
    }
    if (verdict.status == TAPIRVM_OUT_OF_MEMORY) {
        printf("out of memory or time\n");
        return 1;
    }
    if (verdict.status == TAPIRVM_OUT_OF_EFFORT) {
        printf("too dear to judge\n");
        return 1;
    }
    if (verdict.budget > MOST_INSTRUCTIONS || verdict.depth > MOST_FRAMES || verdict.cells > MOST_CELLS) {
        printf("too dear: %" PRIu64 " instructions, %" PRIu64 " frames deep, %" PRIu64 " cells\n", verdict.budget, verdict.depth, verdict.cells);
        return 1;
    }

    for (int k = 2; k < count; k++) arguments[k - 2] = strtoll(words[k], NULL, 10);
    for (size_t k = 0; k < verdict.cells && scanf("%" SCNd64, &cells[k]) == 1; k++) {}
    return run((size_t)length, (size_t)count - 2, (size_t)verdict.cells);
}
