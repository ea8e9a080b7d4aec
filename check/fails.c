/* Each call of the library with the Nth request for memory and all later ones refused, and with the Nth alone, for each N: the answer is the known one or
 * TAPIRVM_OUT_OF_MEMORY, which keeps the cells, and all that was taken is given back.
 *
 * Usage: fails CALL FILE ARGUMENT..  (the name of one call below, or `all`; a kernel that is accepted, and arguments that it takes)
 * It is linked with -Wl,--wrap=malloc -Wl,--wrap=realloc -Wl,--wrap=free. */
#include "tapirvm.h"

#include <stdio.h>
#include <stdlib.h>
#include <string.h>

#define EFFORT UINT64_C(1000000000)

enum { MOST_CELLS = 1 << 12 };

/* the requests that are granted before one is refused, or -1; whether that one alone is refused; and the blocks that are taken */
static long left = -1, taken;
static bool once;

void *__real_malloc(size_t size);
void *__real_realloc(void *block, size_t size);
void __real_free(void *block);

static bool is_refused(void) {
    if (left < 0) return false;
    if (left > 0) {
        left--;
        return false;
    }
    if (once) left = -1;
    return true;
}

void *__wrap_malloc(size_t size) {
    void *block = is_refused() ? NULL : __real_malloc(size);
    if (block != NULL) taken++;
    return block;
}

void *__wrap_realloc(void *block, size_t size) {
    void *moved = is_refused() ? NULL : __real_realloc(block, size);
    if (block == NULL && moved != NULL) taken++;
    return moved;
}

void __wrap_free(void *block) {
    if (block != NULL) taken--;
    __real_free(block);
}

static uint8_t text[1 << 16];
static size_t length, argument_count, cell_count;
static int64_t arguments[8], cells[MOST_CELLS], before[MOST_CELLS];
static struct tapirvm_handle kept = TAPIRVM_NOTHING;
static struct tapirvm_stop stop = TAPIRVM_NOTHING;

static uint32_t try_verify(void) {
    struct tapirvm_verdict verdict = {0};
    tapirvm_verify(text, length, 1, 2, EFFORT, &verdict);
    return verdict.status;
}

static uint32_t try_open(void) {
    struct tapirvm_handle handle = TAPIRVM_NOTHING;
    struct tapirvm_verdict verdict = {0};
    tapirvm_open(text, length, 1, 2, EFFORT, &verdict, &handle);
    if (handle.live != (verdict.status == TAPIRVM_DONE)) return UINT32_MAX;
    tapirvm_close(&handle);
    return verdict.status;
}

static uint32_t try_share(void) {
    struct tapirvm_handle other = TAPIRVM_NOTHING;
    uint32_t status = tapirvm_share(&kept, &other);
    if (!kept.live || other.live != (status == TAPIRVM_DONE)) return UINT32_MAX;
    tapirvm_close(&other);
    return status;
}

static uint32_t try_serial(void) {
    struct tapirvm_outcome outcome = {0};
    tapirvm_serial(text, length, 1, 2, EFFORT, TAPIRVM_UNBOUNDED, arguments, argument_count, cells, cell_count, &outcome);
    return outcome.status;
}

static uint32_t try_run(void) {
    struct tapirvm_outcome outcome = {0};
    tapirvm_run(&kept, TAPIRVM_UNBOUNDED, &stop, arguments, argument_count, cells, cell_count, &outcome);
    return outcome.status;
}

static uint32_t try_rows(void) {
    struct tapirvm_outcome outcome = {0};
    tapirvm_rows(&kept, TAPIRVM_UNBOUNDED, &stop, argument_count, arguments, argument_count, cell_count, cells, cell_count, &outcome, 1);
    return outcome.status;
}

static uint32_t try_replay(void) {
    static const char schedule[] = "step 0 3\nsteal 1 root\nstep 0 1000\n";
    struct tapirvm_outcome outcome = {0};
    tapirvm_replay(&kept, arguments, argument_count, cells, cell_count, 2, (const uint8_t *)schedule, sizeof schedule - 1, &outcome);
    return outcome.status == TAPIRVM_NOT_ENDED ? TAPIRVM_DONE : outcome.status;
}

static uint32_t try_stop(void) {
    struct tapirvm_stop one = TAPIRVM_NOTHING, other = TAPIRVM_NOTHING;
    uint32_t status = tapirvm_stop_open(&one);
    if (status == TAPIRVM_DONE) status = tapirvm_stop_share(&one, &other);
    tapirvm_stop_close(&one);
    tapirvm_stop_close(&other);
    return status;
}

/* three workers that one thread lets in, turn by turn; and the schedule before the answer */
static uint32_t try_board(void) {
    static uint8_t schedule[1 << 16];
    struct tapirvm_board board = TAPIRVM_NOTHING;
    struct tapirvm_worker workers[3] = {TAPIRVM_NOTHING, TAPIRVM_NOTHING, TAPIRVM_NOTHING};
    struct tapirvm_outcome outcome = {0};
    size_t offered, needed;
    tapirvm_board_open(&kept, TAPIRVM_UNBOUNDED, &stop, arguments, argument_count, cells, cell_count, 3, &outcome, &board);
    uint32_t status = outcome.status;
    for (size_t k = 0; k < 3 && status == TAPIRVM_DONE; k++) status = tapirvm_worker_open(&board, (uint8_t)k, &workers[k]);
    for (size_t k = 0; status == TAPIRVM_DONE; k = (k + 1) % 3) {
        uint32_t met = tapirvm_meet(&board, &workers[k], &offered);
        if (met == TAPIRVM_DONE) break;
        status = met == TAPIRVM_WORK ? tapirvm_turn(&workers[k]) : met == TAPIRVM_IDLE ? TAPIRVM_DONE : met;
    }
    if (status == TAPIRVM_DONE) status = tapirvm_board_schedule(&board, schedule, sizeof schedule, &needed);
    if (status == TAPIRVM_DONE) {
        tapirvm_board_finish(&board, cells, cell_count, &outcome);
        status = outcome.status;
    }
    for (size_t k = 0; k < 3; k++) tapirvm_worker_close(&workers[k]);
    tapirvm_board_close(&board);
    return status;
}

static uint32_t try_explain(void) {
    static uint8_t out[1 << 12];
    size_t needed = 0;
    uint32_t status = tapirvm_explain(text, length, 1, 2, EFFORT, out, sizeof out, &needed);
    return (needed > 0) == (status == TAPIRVM_DONE) ? status : UINT32_MAX;
}

static uint32_t try_rule(void) {
    static uint8_t out[1 << 12];
    size_t needed = 0;
    uint32_t status = tapirvm_rule(204, out, sizeof out, &needed);
    return (needed > 0) == (status == TAPIRVM_DONE) ? status : UINT32_MAX;
}

static const struct {
    const char *name;
    uint32_t (*ask)(void);
} calls[] = {{"verify", try_verify}, {"open", try_open},     {"share", try_share}, {"serial", try_serial},   {"run", try_run},   {"rows", try_rows},
             {"stop", try_stop},     {"board", try_board},   {"replay", try_replay}, {"explain", try_explain}, {"rule", try_rule}};

/* how many requests are refused in turn until none is left to refuse; counts what is wrong */
static long sweep(const char *name, uint32_t (*ask)(void), int *wrong) {
    for (long n = 0;; n++) {
        memcpy(cells, before, sizeof cells);
        long held = taken;
        left = n;
        uint32_t status = ask();
        bool spare = left > 0;
        left = -1;
        bool is_told = status == TAPIRVM_DONE || (!spare && status == TAPIRVM_OUT_OF_MEMORY);
        if (!is_told || taken != held || (status != TAPIRVM_DONE && memcmp(cells, before, sizeof cells) != 0)) {
            printf("%s, request %ld: status %u, %ld blocks more\n", name, n, status, taken - held);
            (*wrong)++;
        }
        if (spare) return n;
    }
}

int main(int count, char **words) {
    if (count < 3 || count - 3 > 8) return 2;
    FILE *file = fopen(words[2], "rb");
    if (file == NULL) return 2;
    length = fread(text, 1, sizeof text, file);
    fclose(file);
    argument_count = (size_t)count - 3;
    for (size_t k = 0; k < argument_count; k++) arguments[k] = strtoll(words[k + 3], NULL, 10);
    struct tapirvm_verdict verdict = {0};
    tapirvm_open(text, length, 1, 2, EFFORT, &verdict, &kept);
    if (verdict.status != TAPIRVM_DONE || verdict.cells > MOST_CELLS) return 2;
    cell_count = (size_t)verdict.cells;
    int wrong = 0;
    long refused = 0, tried = 0;
    for (size_t k = 0; k < sizeof calls / sizeof *calls; k++) {
        if (strcmp(words[1], "all") != 0 && strcmp(words[1], calls[k].name) != 0) continue;
        tried++;
        once = false;
        refused += sweep(calls[k].name, calls[k].ask, &wrong);
        once = true;
        refused += sweep(calls[k].name, calls[k].ask, &wrong);
    }
    tapirvm_close(&kept);
    printf("%ld requests refused in %ld calls in C, %d differences\n", refused, tried, wrong);
    return wrong != 0 || tried == 0;
}
