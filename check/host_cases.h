/* Cases for programs that run modules from C: a kernel that is open, arguments, and cells to begin from.
 *
 * A case is a line `PATH COUNT ARGUMENT.. COUNT CELL..`; cells for which none is given begin as 0. */
#ifndef HOST_CASES_H
#define HOST_CASES_H

#include "tapirvm.h"

#include <inttypes.h>
#include <stdio.h>
#include <stdlib.h>
#include <string.h>

enum { MOST_ARGUMENTS = 16 };

struct host_case {
    char path[512];
    struct tapirvm_handle kernel;
    size_t argument_count, cell_count;
    int64_t arguments[MOST_ARGUMENTS];
    int64_t *begin; /* the cells to begin from, */
    int64_t *cells; /* and those of the serial run's end, where `serial` has one */
    struct tapirvm_outcome serial;
};

/* Judges the text of a file by a seed and keeps it. The program ends where it is not accepted. */
static inline struct tapirvm_verdict open_seeded(const char *path, uint64_t seed, struct tapirvm_handle *kernel) {
    static uint8_t text[1 << 20];
    struct tapirvm_verdict verdict = {0};
    FILE *file = fopen(path, "rb");
    if (file == NULL) {
        printf("%s: no such file\n", path);
        exit(2);
    }
    size_t length = fread(text, 1, sizeof text, file);
    fclose(file);
    tapirvm_open(text, length, seed, 2, UINT64_C(1000000000), &verdict, kernel);
    if (verdict.status != TAPIRVM_DONE) {
        printf("%s: status %" PRIu32 " rule %" PRIu16 " line %" PRIu32 "\n", path, verdict.status, verdict.rule, verdict.line);
        exit(2);
    }
    return verdict;
}

static inline struct tapirvm_verdict open_file(const char *path, struct tapirvm_handle *kernel) { return open_seeded(path, 1, kernel); }

static inline int64_t *new_cells(size_t count) {
    int64_t *cells = calloc(count + 1, sizeof *cells);
    if (cells == NULL) exit(3);
    return cells;
}

/* The next case, run serially. */
static inline bool next_case(FILE *list, struct host_case *it) {
    struct tapirvm_stop nobody = TAPIRVM_NOTHING;
    size_t given = 0;
    memset(it, 0, sizeof *it);
    if (fscanf(list, "%511s %zu", it->path, &it->argument_count) != 2 || it->argument_count > MOST_ARGUMENTS) return false;
    it->cell_count = (size_t)open_file(it->path, &it->kernel).cells;
    it->begin = new_cells(it->cell_count);
    it->cells = new_cells(it->cell_count);
    for (size_t k = 0; k < it->argument_count; k++)
        if (fscanf(list, "%" SCNd64, &it->arguments[k]) != 1) exit(2);
    if (fscanf(list, "%zu", &given) != 1 || given > it->cell_count) exit(2);
    for (size_t k = 0; k < given; k++)
        if (fscanf(list, "%" SCNd64, &it->begin[k]) != 1) exit(2);
    memcpy(it->cells, it->begin, it->cell_count * sizeof *it->cells);
    tapirvm_run(&it->kernel, TAPIRVM_UNBOUNDED, &nobody, it->arguments, it->argument_count, it->cells, it->cell_count, &it->serial);
    return true;
}

/* Whether an outcome and cells are those of the serial run. */
static inline bool is_serial(const struct host_case *it, const struct tapirvm_outcome *outcome, const int64_t *cells) {
    return outcome->status == it->serial.status && outcome->requirement == it->serial.requirement && outcome->result == it->serial.result &&
           outcome->instructions == it->serial.instructions && outcome->peak == it->serial.peak &&
           memcmp(cells, it->cells, it->cell_count * sizeof *cells) == 0;
}

static inline void end_case(struct host_case *it) {
    tapirvm_close(&it->kernel);
    free(it->begin);
    free(it->cells);
}

/* The same numbers in each run. */
static inline uint64_t drawn(uint64_t *state, uint64_t below) {
    *state ^= *state << 13, *state ^= *state >> 7, *state ^= *state << 17;
    return *state % below;
}

#endif
