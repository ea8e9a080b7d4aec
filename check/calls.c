/* What each call of the library answers on examples/, against what is known of them: fails, with a line for each, where one answers otherwise.
 *
 * Usage: calls EXAMPLES */
#include "tapirvm_threads.h"

#include <inttypes.h>
#include <stdio.h>
#include <stdlib.h>
#include <string.h>

#define EFFORT UINT64_C(1000000000)

static int wrong, asked;
static const char *examples;
static struct tapirvm_stop nobody = TAPIRVM_NOTHING;

struct text {
    uint8_t bytes[1 << 16];
    size_t length;
};

static struct text read_text(const char *name) {
    char path[4096];
    struct text text;
    snprintf(path, sizeof path, "%s/%s", examples, name);
    FILE *file = fopen(path, "rb");
    if (file == NULL) {
        perror(path);
        exit(2);
    }
    text.length = fread(text.bytes, 1, sizeof text.bytes, file);
    fclose(file);
    return text;
}

static void want(const char *what, int64_t found, int64_t wanted) {
    asked++;
    if (found == wanted) return;
    wrong++;
    printf("%s: %" PRId64 ", wanted %" PRId64 "\n", what, found, wanted);
}

static struct tapirvm_handle open_text(const char *name) {
    struct text text = read_text(name);
    struct tapirvm_handle handle = TAPIRVM_NOTHING;
    struct tapirvm_verdict verdict = {0};
    tapirvm_open(text.bytes, text.length, 1, 2, EFFORT, &verdict, &handle);
    want(name, verdict.status, TAPIRVM_DONE);
    want(name, handle.live, 1);
    return handle;
}

static void judge(void) {
    struct text text = read_text("pair.ll");
    struct tapirvm_handle handle = TAPIRVM_NOTHING;
    struct tapirvm_verdict verdict = {0};
    tapirvm_verify(text.bytes, text.length, 1, 2, EFFORT, &verdict);
    want("verify", verdict.status, TAPIRVM_DONE);
    want("budget", (int64_t)verdict.budget, 14);
    want("cells", (int64_t)verdict.cells, 2);
    tapirvm_verify(text.bytes, text.length, 1, 2, 0, &verdict);
    want("verify without effort", verdict.status, TAPIRVM_OUT_OF_EFFORT);
    tapirvm_open(text.bytes, text.length, 1, 2, EFFORT, &verdict, &handle);
    want("open", verdict.status, TAPIRVM_DONE);
    tapirvm_open(text.bytes, text.length, 1, 2, 0, &verdict, &handle);
    want("open without effort", verdict.status, TAPIRVM_OUT_OF_EFFORT);
    want("what it held is given back", handle.live, 0);
    text = read_text("alias.ll");
    tapirvm_open(text.bytes, text.length, 1, 2, TAPIRVM_UNBOUNDED, &verdict, &handle);
    want("open alias.ll", verdict.status, TAPIRVM_REFUSED);
    want("its rule", verdict.rule, 204);
    want("its line", verdict.line, 17);
    tapirvm_open(text.bytes, 0, 1, 2, EFFORT, &verdict, &handle);
    want("open no text", verdict.status, TAPIRVM_REFUSED);
    want("nothing is held", handle.live, 0);
}

/* An effort that is just enough for a verdict, and one that is a step short: those at which the program turns over (check/cases/transcripts/verify.txt). */
static void judge_within(const char *name, uint64_t enough) {
    struct text text = read_text(name);
    struct tapirvm_handle handle = TAPIRVM_NOTHING;
    struct tapirvm_verdict verdict = {0};
    struct tapirvm_outcome outcome = {0};
    int64_t none[1] = {0};
    uint8_t out[1];
    size_t needed;
    for (uint64_t less = 0; less < 2; less++) {
        uint32_t status = less ? TAPIRVM_OUT_OF_EFFORT : TAPIRVM_DONE;
        tapirvm_verify(text.bytes, text.length, 1, 2, enough - less, &verdict);
        want(name, verdict.status, status);
        tapirvm_open(text.bytes, text.length, 1, 2, enough - less, &verdict, &handle);
        want(name, verdict.status, status);
        want("it is held", handle.live, !less);
        tapirvm_close(&handle);
        tapirvm_serial(text.bytes, text.length, 1, 2, enough - less, 0, none, 0, none, 0, &outcome);
        want("judged before it is run", outcome.status == TAPIRVM_OUT_OF_EFFORT, (int64_t)less);
    }
    want("explain a step short", tapirvm_explain(text.bytes, text.length, 1, 2, enough - 1, out, 0, &needed), TAPIRVM_OUT_OF_EFFORT);
}

/* pair.ll: each child stores its argument in a cell, the root returns their sum, in 14 instructions on two frames at most */
static void run(void) {
    struct tapirvm_handle handle = open_text("pair.ll");
    struct tapirvm_outcome outcome = {0};
    int64_t argument = 7, cells[2] = {5, 6};
    tapirvm_run(&handle, 13, &nobody, &argument, 1, cells, 2, &outcome);
    want("run with fuel for 13", outcome.status, TAPIRVM_OUT_OF_FUEL);
    want("its cells are kept", cells[0] == 5 && cells[1] == 6, 1);
    tapirvm_run(&handle, 0, &nobody, &argument, 1, cells, 2, &outcome);
    want("run without fuel", outcome.status, TAPIRVM_OUT_OF_FUEL);
    tapirvm_run(&handle, 14, &nobody, &argument, 0, cells, 2, &outcome);
    want("run without arguments", outcome.status, TAPIRVM_BAD_ARGUMENTS);
    want("its requirement", (int64_t)outcome.requirement, 0);
    tapirvm_run(&handle, 14, &nobody, &argument, 1, cells, 1, &outcome);
    want("run with one cell", outcome.status, TAPIRVM_OTHER_CELLS);
    tapirvm_run(&handle, 14, &nobody, &argument, 1, cells, 2, &outcome);
    want("run with fuel for 14", outcome.status, TAPIRVM_DONE);
    want("result", outcome.result, 14);
    want("instructions", (int64_t)outcome.instructions, 14);
    want("peak", (int64_t)outcome.peak, 2);
    want("cells", cells[0] == 7 && cells[1] == 7, 1);
    tapirvm_close(&handle);
    tapirvm_close(&handle);
    want("closed", handle.live, 0);
    tapirvm_run(&handle, 14, &nobody, &argument, 1, cells, 2, &outcome);
    want("run what is closed", outcome.status, TAPIRVM_CLOSED);
    handle = open_text("add-one.ll");
    argument = -1;
    tapirvm_run(&handle, 14, &nobody, &argument, 1, cells, 0, &outcome);
    want("run add-one.ll of -1", outcome.status, TAPIRVM_BAD_ARGUMENTS);
    want("its requirement", (int64_t)outcome.requirement, 1);
    tapirvm_close(&handle);
}

/* six rows of pair.ll: the fifth has too few cells, the sixth no arguments and no cells */
static void rows(void) {
    struct tapirvm_handle handle = open_text("pair.ll");
    struct tapirvm_outcome outcomes[6] = {{0}};
    int64_t arguments[5] = {1, 2, 3, 4, 5}, cells[9] = {0};
    cells[8] = 9;
    tapirvm_rows(&handle, 14, &nobody, 1, arguments, 5, 2, cells, 9, outcomes, 6);
    for (int row = 0; row < 4; row++) {
        want("row", outcomes[row].status, TAPIRVM_DONE);
        want("its result", outcomes[row].result, 2 * (row + 1));
        want("its cells", cells[2 * row] == row + 1 && cells[2 * row + 1] == row + 1, 1);
    }
    want("row with one cell", outcomes[4].status, TAPIRVM_OTHER_CELLS);
    want("its cell", cells[8], 9);
    want("row with nothing", outcomes[5].status, TAPIRVM_OTHER_CELLS);
    tapirvm_rows(&handle, 13, &nobody, 1, arguments, 5, 2, cells, 9, outcomes, 6);
    want("row without fuel", outcomes[3].status, TAPIRVM_OUT_OF_FUEL);
    tapirvm_rows(&handle, 14, &nobody, SIZE_MAX, arguments, 5, SIZE_MAX, cells, 9, outcomes, 2);
    want("one large row", outcomes[0].status, TAPIRVM_OTHER_CELLS);
    tapirvm_rows(&handle, 14, &nobody, 0, arguments, 5, 2, cells, 8, outcomes, 1);
    want("row without arguments", outcomes[0].status, TAPIRVM_BAD_ARGUMENTS);
    tapirvm_close(&handle);
    tapirvm_rows(&handle, 14, &nobody, 1, arguments, 5, 2, cells, 9, outcomes, 6);
    want("row of what is closed", outcomes[5].status, TAPIRVM_CLOSED);
}

static uint32_t replay(struct tapirvm_handle *handle, size_t workers, const char *schedule, struct tapirvm_outcome *outcome, int64_t cells[2]) {
    int64_t argument = 7;
    cells[0] = cells[1] = 0;
    tapirvm_replay(handle, &argument, 1, cells, 2, workers, (const uint8_t *)schedule, strlen(schedule), outcome);
    return outcome->status;
}

static void replays(void) {
    struct tapirvm_handle handle = open_text("pair.ll");
    struct tapirvm_outcome outcome = {0};
    int64_t cells[2];
    want("replay", replay(&handle, 1, "step 0 14\n", &outcome, cells), TAPIRVM_DONE);
    want("result", outcome.result, 14);
    want("instructions", (int64_t)outcome.instructions, 14);
    want("cells", cells[0] == 7 && cells[1] == 7, 1);
    want("replay with a steal", replay(&handle, 2, "step 0 2\nsteal 1 root\nstep 1 3\nstep 0 20\n", &outcome, cells), TAPIRVM_DONE);
    want("result", outcome.result, 14);
    want("instructions", (int64_t)outcome.instructions, 14);
    want("too short", replay(&handle, 1, "step 0 13\n", &outcome, cells), TAPIRVM_NOT_ENDED);
    want("instructions", (int64_t)outcome.instructions, 13);
    want("cells are kept", cells[0] == 0 && cells[1] == 0, 1);
    want("no events", replay(&handle, 64, "", &outcome, cells), TAPIRVM_NOT_ENDED);
    want("no workers", replay(&handle, 0, "", &outcome, cells), TAPIRVM_BAD_WORKERS);
    want("65 workers", replay(&handle, 65, "", &outcome, cells), TAPIRVM_BAD_WORKERS);
    want("no line feed", replay(&handle, 1, "step 0 13\nstep 1 1", &outcome, cells), TAPIRVM_BAD_SCHEDULE);
    want("its line", outcome.line, 2);
    want("many events", replay(&handle, 1, "step 0 1048577\n", &outcome, cells), TAPIRVM_LONG_SCHEDULE);
    want("its line", outcome.line, 1);
    tapirvm_close(&handle);
    want("replay what is closed", replay(&handle, 1, "step 0 14\n", &outcome, cells), TAPIRVM_CLOSED);
}

static void share(void) {
    struct tapirvm_handle one = open_text("pair.ll"), two = open_text("add-one.ll");
    struct tapirvm_outcome outcome = {0};
    int64_t argument = 7, cells[2] = {0};
    want("share", tapirvm_share(&one, &two), TAPIRVM_DONE);
    tapirvm_close(&one);
    tapirvm_run(&two, 14, &nobody, &argument, 1, cells, 2, &outcome);
    want("run what is shared", outcome.status, TAPIRVM_DONE);
    want("result", outcome.result, 14);
    want("share what is closed", tapirvm_share(&one, &two), TAPIRVM_CLOSED);
    want("nothing is held", two.live, 0);
}

static void words(void) {
    static uint8_t out[1 << 16];
    size_t needed = 1;
    want("rule", tapirvm_rule(204, out, sizeof out, &needed), TAPIRVM_DONE);
    want("it begins with its number", memcmp(out, "204: ", 5), 0);
    want("and ends with a line feed", out[needed - 1], '\n');
    size_t all = needed;
    memset(out, 'x', 16);
    want("rule in ten bytes", tapirvm_rule(204, out, 10, &needed), TAPIRVM_DONE);
    want("needed", needed == all, 1);
    want("no more are written", memcmp(out, "204: ", 5) == 0 && out[10] == 'x', 1);
    want("no rule", tapirvm_rule(999, out, sizeof out, &needed), TAPIRVM_NO_RULE);
    want("no words", (int64_t)needed, 0);
    struct text text = read_text("alias.ll");
    want("explain", tapirvm_explain(text.bytes, text.length, 1, 2, EFFORT, out, sizeof out, &needed), TAPIRVM_REFUSED);
    want("it begins with the verdict", memcmp(out, "refused 204 line 17\n", 20), 0);
    text = read_text("pair.ll");
    want("explain pair.ll", tapirvm_explain(text.bytes, text.length, 1, 2, EFFORT, out, sizeof out, &needed), TAPIRVM_DONE);
    want("it is accepted", memcmp(out, "accepted\n", 9), 0);
    want("explain without effort", tapirvm_explain(text.bytes, text.length, 1, 2, 0, out, sizeof out, &needed), TAPIRVM_OUT_OF_EFFORT);
    want("its words", needed == 10 && memcmp(out, "undecided\n", 10) == 0, 1);
    want("explain in no room", tapirvm_explain(text.bytes, text.length, 1, 2, 0, out, 0, &needed), TAPIRVM_OUT_OF_EFFORT);
    want("needed", (int64_t)needed, 10);
}

/* Each status of the header has a sentence of its own, and no other number has one. */
static void sentences(void) {
    static const uint32_t statuses[] = {TAPIRVM_DONE,        TAPIRVM_REFUSED,     TAPIRVM_OTHER_CELLS,   TAPIRVM_OUT_OF_EFFORT, TAPIRVM_CLOSED,
                                        TAPIRVM_OUT_OF_FUEL, TAPIRVM_NOT_ENDED,   TAPIRVM_NO_RULE,       TAPIRVM_NOT_FOUND,     TAPIRVM_FOREIGN,
                                        TAPIRVM_WORK,        TAPIRVM_IDLE,        TAPIRVM_BAD_ARGUMENTS, TAPIRVM_BAD_WORKERS,   TAPIRVM_OUT_OF_MEMORY,
                                        TAPIRVM_STOPPED,     TAPIRVM_BAD_SCHEDULE, TAPIRVM_LONG_SCHEDULE};
    enum { COUNT = sizeof statuses / sizeof *statuses, ROOM = 256 };
    static uint8_t said[COUNT][ROOM];
    size_t needed[COUNT], none, version = 0;
    for (size_t k = 0; k < COUNT; k++) {
        want("words of a status", tapirvm_words(statuses[k], said[k], ROOM, &needed[k]), TAPIRVM_DONE);
        want("there are some", needed[k] > 0 && needed[k] <= ROOM, 1);
        for (size_t j = 0; j < k; j++) want("and they differ", needed[j] != needed[k] || memcmp(said[j], said[k], needed[k]) != 0, 1);
    }
    want("words of no status", tapirvm_words(12, said[0], ROOM, &none), TAPIRVM_NOT_FOUND);
    want("there are none", (int64_t)none, 0);
    char wanted[32];
    int length = snprintf(wanted, sizeof wanted, "%d.%d", (int)tapirvm_abi(), (int)tapirvm_minor());
    tapirvm_version(said[0], ROOM, &version);
    want("the version as text", version == (size_t)length && memcmp(said[0], wanted, version) == 0, 1);
}

static void stops(void) {
    struct tapirvm_handle handle = open_text("pair.ll");
    struct tapirvm_outcome outcome = {0};
    struct tapirvm_stop one = TAPIRVM_NOTHING, two = TAPIRVM_NOTHING;
    int64_t argument = 7, cells[2] = {5, 6};
    want("set nothing", tapirvm_stop_set(&one), TAPIRVM_CLOSED);
    want("clear nothing", tapirvm_stop_clear(&one), TAPIRVM_CLOSED);
    want("share nothing", tapirvm_stop_share(&one, &two), TAPIRVM_CLOSED);
    want("nothing is not set", tapirvm_stop_is_set(&one), 0);
    want("a stop", tapirvm_stop_open(&one), TAPIRVM_DONE);
    want("another handle on it", tapirvm_stop_share(&one, &two), TAPIRVM_DONE);
    want("it is not set", tapirvm_stop_is_set(&two), 0);
    want("set it", tapirvm_stop_set(&one), TAPIRVM_DONE);
    want("it is set", tapirvm_stop_is_set(&two), 1);
    tapirvm_stop_close(&one);
    want("it is set still", tapirvm_stop_is_set(&two), 1);
    tapirvm_run(&handle, 14, &two, &argument, 1, cells, 2, &outcome);
    want("run what is stopped", outcome.status, TAPIRVM_STOPPED);
    want("its cells are kept", cells[0] == 5 && cells[1] == 6, 1);
    tapirvm_rows(&handle, 14, &two, 1, &argument, 1, 2, cells, 2, &outcome, 1);
    want("a row of what is stopped", outcome.status, TAPIRVM_STOPPED);
    want("its cells are kept", cells[0] == 5 && cells[1] == 6, 1);
    want("clear it", tapirvm_stop_clear(&two), TAPIRVM_DONE);
    tapirvm_run(&handle, 14, &two, &argument, 1, cells, 2, &outcome);
    want("run what goes on", outcome.status, TAPIRVM_DONE);
    tapirvm_stop_close(&two);
    tapirvm_stop_close(&two);
    tapirvm_close(&handle);
}

/* pair.ll on a board: by one worker of two, to the known answer */
static void boards(void) {
    static uint8_t schedule[1 << 12];
    struct tapirvm_handle handle = open_text("pair.ll");
    struct tapirvm_outcome outcome = {0};
    struct tapirvm_board board = TAPIRVM_NOTHING;
    struct tapirvm_worker worker = TAPIRVM_NOTHING, beyond = TAPIRVM_NOTHING;
    int64_t argument = 7, cells[2] = {5, 6}, ends[2] = {1, 2};
    size_t offered = 9, needed = 9;
    tapirvm_board_open(&handle, 14, &nobody, &argument, 0, cells, 2, 2, &outcome, &board);
    want("a board without arguments", outcome.status, TAPIRVM_BAD_ARGUMENTS);
    want("is none", board.live, 0);
    tapirvm_board_open(&handle, 14, &nobody, &argument, 1, cells, 1, 2, &outcome, &board);
    want("a board with one cell", outcome.status, TAPIRVM_OTHER_CELLS);
    tapirvm_board_open(&handle, 14, &nobody, &argument, 1, cells, 2, 0, &outcome, &board);
    want("a board without workers", outcome.status, TAPIRVM_BAD_WORKERS);
    tapirvm_board_open(&handle, 14, &nobody, &argument, 1, cells, 2, 65, &outcome, &board);
    want("a board of 65 workers", outcome.status, TAPIRVM_BAD_WORKERS);
    tapirvm_board_open(&handle, TAPIRVM_UNBOUNDED, &nobody, &argument, 1, cells, 2, 2, &outcome, &board);
    want("a board", outcome.status, TAPIRVM_DONE);
    want("holds a run", board.live, 1);
    tapirvm_close(&handle);
    tapirvm_board_finish(&board, ends, 2, &outcome);
    want("it has not ended", outcome.status, TAPIRVM_NOT_ENDED);
    want("nothing is done", (int64_t)outcome.instructions, 0);
    want("it is kept", board.live, 1);
    want("a worker", tapirvm_worker_open(&board, 0, &worker), TAPIRVM_DONE);
    want("one too many", tapirvm_worker_open(&board, 2, &beyond), TAPIRVM_DONE);
    want("it finds nothing", tapirvm_meet(&board, &beyond, &offered), TAPIRVM_IDLE);
    want("it offers nothing", (int64_t)offered, 0);
    uint32_t status;
    for (int k = 0; k < 1000 && (status = tapirvm_meet(&board, &worker, &offered)) == TAPIRVM_WORK; k++) want("a turn", tapirvm_turn(&worker), TAPIRVM_DONE);
    want("it has ended", status, TAPIRVM_DONE);
    want("its schedule", tapirvm_board_schedule(&board, schedule, sizeof schedule, &needed), TAPIRVM_DONE);
    want("is some lines", needed > 0 && schedule[needed - 1] == '\n', 1);
    tapirvm_board_finish(&board, ends, 1, &outcome);
    want("its answer in one cell", outcome.status, TAPIRVM_OTHER_CELLS);
    want("the cells are kept", ends[0] == 1 && ends[1] == 2, 1);
    tapirvm_board_finish(&board, ends, 2, &outcome);
    want("its answer", outcome.status, TAPIRVM_DONE);
    want("result", outcome.result, 14);
    want("instructions", (int64_t)outcome.instructions, 14);
    want("peak", (int64_t)outcome.peak, 2);
    want("cells", ends[0] == 7 && ends[1] == 7 && cells[0] == 5 && cells[1] == 6, 1);
    want("the board is empty", board.live, 0);
    want("a meeting there", tapirvm_meet(&board, &worker, &offered), TAPIRVM_CLOSED);
    want("the worker is kept", worker.live, 1);
    want("and takes a turn", tapirvm_turn(&worker), TAPIRVM_DONE);
    tapirvm_worker_close(&worker);
    tapirvm_worker_close(&beyond);
}

static void crews(void) {
    struct tapirvm_handle handle = open_text("pair.ll");
    struct tapirvm_outcome outcome = {0};
    struct tapirvm_crew crew = {0};
    int64_t argument = 7, cells[2] = {5, 6};
    tapirvm_run_threads(&handle, 0, 14, &nobody, &argument, 1, cells, 2, &outcome);
    want("no workers", outcome.status, TAPIRVM_BAD_WORKERS);
    tapirvm_run_threads(&handle, 65, 14, &nobody, &argument, 1, cells, 2, &outcome);
    want("65 workers", outcome.status, TAPIRVM_BAD_WORKERS);
    tapirvm_run_threads(&handle, 2, 14, &nobody, &argument, 0, cells, 2, &outcome);
    want("no arguments on threads", outcome.status, TAPIRVM_BAD_ARGUMENTS);
    tapirvm_run_threads(&handle, 2, 14, &nobody, &argument, 1, cells, 1, &outcome);
    want("one cell on threads", outcome.status, TAPIRVM_OTHER_CELLS);
    want("the cells are kept", cells[0] == 5 && cells[1] == 6, 1);
    tapirvm_run_threads(&handle, 64, TAPIRVM_UNBOUNDED, &nobody, &argument, 1, cells, 2, &outcome);
    want("64 workers", outcome.status, TAPIRVM_DONE);
    want("result", outcome.result, 14);
    want("cells", cells[0] == 7 && cells[1] == 7, 1);
    want("nobody runs", tapirvm_crew_run(&crew), TAPIRVM_CLOSED);
    tapirvm_crew_open(&handle, 2, 0, &nobody, &argument, 1, cells, 2, &outcome, &crew);
    want("no fuel", tapirvm_crew_run(&crew), TAPIRVM_OUT_OF_FUEL);
    want("more fuel", tapirvm_board_fuel(&crew.board, 1000), TAPIRVM_DONE);
    want("it goes on", tapirvm_crew_run(&crew), TAPIRVM_DONE);
    tapirvm_crew_open(&handle, 2, 0, &nobody, &argument, 0, cells, 2, &outcome, &crew);
    want("a crew without arguments", outcome.status, TAPIRVM_BAD_ARGUMENTS);
    want("is none", crew.board.live || crew.count != 0, 0);
    tapirvm_close(&handle);
    tapirvm_run_threads(&handle, 2, 14, &nobody, &argument, 1, cells, 2, &outcome);
    want("run what is closed on threads", outcome.status, TAPIRVM_CLOSED);
    tapirvm_crew_close(&crew);
}

/* Calls on handles that hold nothing. */
static void nothing(void) {
    struct tapirvm_handle handle = TAPIRVM_NOTHING;
    struct tapirvm_board board = TAPIRVM_NOTHING;
    struct tapirvm_worker worker = TAPIRVM_NOTHING;
    struct tapirvm_outcome outcome = {0};
    struct tapirvm_range range = {true, true, 1, 2};
    uint8_t out[8];
    int64_t cells[1] = {0};
    size_t offered = 9, needed = 9;
    uint64_t first = 9, count = 9;
    tapirvm_board_open(&handle, 1, &nobody, cells, 0, cells, 0, 1, &outcome, &board);
    want("a board of nothing", outcome.status, TAPIRVM_CLOSED);
    want("a worker of nothing", tapirvm_worker_open(&board, 0, &worker), TAPIRVM_CLOSED);
    want("a meeting of nothing", tapirvm_meet(&board, &worker, &offered), TAPIRVM_CLOSED);
    want("offers nothing", (int64_t)offered, 0);
    want("a turn of nothing", tapirvm_turn(&worker), TAPIRVM_CLOSED);
    want("fuel for nothing", tapirvm_board_fuel(&board, 1), TAPIRVM_CLOSED);
    want("the schedule of nothing", tapirvm_board_schedule(&board, out, sizeof out, &needed), TAPIRVM_CLOSED);
    want("is nothing", (int64_t)needed, 0);
    tapirvm_board_finish(&board, cells, 0, &outcome);
    want("the answer of nothing", outcome.status, TAPIRVM_CLOSED);
    want("globals of nothing", (int64_t)tapirvm_globals(&handle), 0);
    want("arguments of nothing", (int64_t)tapirvm_arguments(&handle), 0);
    want("cells of its frames", (int64_t)tapirvm_frame_cells(&handle), 0);
    want("a global of nothing", tapirvm_global(&handle, out, 0, &first, &count), TAPIRVM_CLOSED);
    want("is none", first == 0 && count == 0, 1);
    want("its first global", tapirvm_global_at(&handle, 0, out, sizeof out, &needed, &first, &count), TAPIRVM_CLOSED);
    want("an argument of nothing", tapirvm_argument_at(&handle, 0, out, sizeof out, &needed, &range), TAPIRVM_CLOSED);
    want("has no bounds", range.has_low || range.has_high, 0);
    tapirvm_board_close(&board);
    tapirvm_worker_close(&worker);
    want("all of it is nothing", board.live || worker.live, 0);
}

static void globals(void) {
    struct tapirvm_handle handle = open_text("kernels/merge-sort.ll"), none = open_text("add-one.ll");
    uint64_t first = 9, count = 9, at = 0;
    uint8_t out[32];
    size_t needed = 0, all = tapirvm_globals(&handle);
    want("globals of merge-sort.ll", (int64_t)all, 2);
    want("of add-one.ll", (int64_t)tapirvm_globals(&none), 0);
    for (size_t k = 0; k < all; k++) {
        uint64_t again = 9, cells = 9;
        want("a global", tapirvm_global_at(&handle, k, out, sizeof out, &needed, &first, &count), TAPIRVM_DONE);
        want("it follows the one before", first == at, 1);
        want("by its name", tapirvm_global(&handle, out, needed, &again, &cells), TAPIRVM_DONE);
        want("it is the same", again == first && cells == count, 1);
        at += count;
    }
    want("one more", tapirvm_global_at(&handle, all, out, sizeof out, &needed, &first, &count), TAPIRVM_NOT_FOUND);
    want("is none", needed == 0 && first == 0 && count == 0, 1);
    want("another name", tapirvm_global(&handle, (const uint8_t *)"nobody", 6, &first, &count), TAPIRVM_NOT_FOUND);
    want("with the sign", tapirvm_global(&handle, (const uint8_t *)"@a", 2, &first, &count), TAPIRVM_NOT_FOUND);
    tapirvm_close(&handle);
    handle = open_text("pair.ll");
    out[0] = 'x';
    want("the global of pair.ll in no room", tapirvm_global_at(&handle, 0, out, 0, &needed, &first, &count), TAPIRVM_DONE);
    want("its name", needed == 1 && out[0] == 'x', 1);
    want("its cells", first == 0 && count == 2, 1);
    tapirvm_close(&handle);
    tapirvm_close(&none);
}

/* add-one.ll requires %n >= 0 and %n <= 100; pair.ll requires nothing of %n; load.ll has no argument */
static void arguments(void) {
    struct tapirvm_handle handle = open_text("add-one.ll");
    struct tapirvm_range range = {0};
    uint8_t out[8];
    size_t needed = 0;
    want("arguments of add-one.ll", (int64_t)tapirvm_arguments(&handle), 1);
    want("the first", tapirvm_argument_at(&handle, 0, out, sizeof out, &needed, &range), TAPIRVM_DONE);
    want("its name", needed == 1 && out[0] == 'n', 1);
    want("its bounds", range.has_low && range.has_high, 1);
    want("its least value", range.low, 0);
    want("its greatest value", range.high, 100);
    want("a second", tapirvm_argument_at(&handle, 1, out, sizeof out, &needed, &range), TAPIRVM_NOT_FOUND);
    want("has no bounds", range.has_low || range.has_high || range.low != 0 || range.high != 0, 0);
    tapirvm_close(&handle);
    handle = open_text("pair.ll");
    want("of pair.ll", tapirvm_argument_at(&handle, 0, out, sizeof out, &needed, &range), TAPIRVM_DONE);
    want("without bounds", range.has_low || range.has_high, 0);
    want("no cells in its frames", (int64_t)tapirvm_frame_cells(&handle), 0);
    tapirvm_close(&handle);
    handle = open_text("load.ll");
    want("arguments of load.ll", (int64_t)tapirvm_arguments(&handle), 0);
    tapirvm_close(&handle);
    handle = open_text("fib.ll");
    want("a cell in a frame of fib.ll", (int64_t)tapirvm_frame_cells(&handle), 1);
    tapirvm_close(&handle);
}

int main(int count, char **given) {
    if (count != 2) return 2;
    examples = given[1];
    want("version", tapirvm_abi(), TAPIRVM_MAJOR);
    want("its minor number", tapirvm_minor(), TAPIRVM_MINOR);
    judge();
    judge_within("fib.ll", 16411);
    judge_within("parallel-for.ll", 22337);
    judge_within("kernels/tree-sum.ll", 60165);
    run();
    rows();
    replays();
    share();
    words();
    sentences();
    stops();
    boards();
    crews();
    nothing();
    globals();
    arguments();
    printf("%d answers of the calls in C, %d differences\n", asked, wrong);
    return wrong != 0;
}
