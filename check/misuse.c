/* The calls of a run in an order that is drawn, by one thread: meetings and turns of any worker at any time, two workers of one number, workers that are
 * closed in the middle and made anew, workers of another board, of another module and of none, stops, fuel in small parts, schedules and answers that are
 * asked for too early. Each answer is to be the serial one.
 *
 * Usage: misuse OTHER RUNS CALLS < CASES (host_cases.h)  (OTHER is a module whose @main takes no arguments)
 * Each case has so many runs, of at most so many calls each. A run that has not ended by then is done to its end in good order. */
#include "host_cases.h"

enum { MOST_HANDS = 12 };

/* a module without arguments, whose text is another one, or the same with another seed */
static struct tapirvm_handle others[2] = {TAPIRVM_NOTHING, TAPIRVM_NOTHING};
static const char *other_path;
static uint64_t state = UINT64_C(88172645463325252);
static long runs, calls, ended, foreign, wrong;
static int64_t *other_cells;
static size_t other_count;

static void is_wrong(const struct host_case *it, const char *what, uint32_t status) {
    printf("%s: %s, status %" PRIu32 "\n", it->path, what, status);
    wrong++;
}

/* What is drawn for a run: its board, workers, and a stop that is now and then set. */
struct play {
    struct host_case *it;
    struct tapirvm_board board, other, foreign;
    struct tapirvm_worker hands[MOST_HANDS], stranger, foreigner;
    struct tapirvm_stop stop, own;
    size_t workers, hand_count;
    int64_t *cells;
    struct tapirvm_outcome outcome;
};

static void meet(struct play *play, struct tapirvm_worker *hand) {
    size_t offered = 7;
    uint32_t status = tapirvm_meet(&play->board, hand, &offered);
    switch (status) {
    case TAPIRVM_WORK:
    case TAPIRVM_IDLE:
    case TAPIRVM_DONE: break;
    case TAPIRVM_STOPPED: tapirvm_stop_clear(&play->own); break;
    case TAPIRVM_OUT_OF_FUEL: tapirvm_board_fuel(&play->board, 1 + drawn(&state, 100000)); break;
    default: is_wrong(play->it, "a meeting", status);
    }
}

/* A worker of another board of the module does no harm; one of another module, or none, does nothing. */
static void meet_strangers(struct play *play) {
    struct tapirvm_worker nobody = TAPIRVM_NOTHING;
    size_t offered = 7;
    meet(play, &play->stranger);
    uint32_t status = tapirvm_meet(&play->board, &play->foreigner, &offered);
    if (status != TAPIRVM_FOREIGN || offered != 0 || !play->board.live || !play->foreigner.live) is_wrong(play->it, "a meeting of a foreigner", status);
    status = tapirvm_meet(&play->board, &nobody, &offered);
    if (status != TAPIRVM_CLOSED || offered != 0 || !play->board.live) is_wrong(play->it, "a meeting of nobody", status);
    foreign++;
}

/* One call; whether the run has ended and its answer is there. */
static bool call(struct play *play) {
    static uint8_t out[64];
    struct tapirvm_worker *hand = &play->hands[drawn(&state, play->hand_count)];
    size_t needed;
    calls++;
    switch (drawn(&state, 20)) {
    case 0:
        tapirvm_board_finish(&play->board, play->cells, play->it->cell_count, &play->outcome);
        if (play->outcome.status != TAPIRVM_DONE && play->outcome.status != TAPIRVM_NOT_ENDED) is_wrong(play->it, "an answer", play->outcome.status);
        return play->outcome.status == TAPIRVM_DONE;
    case 1:
        if (drawn(&state, 50) != 0) return false;
        if (drawn(&state, 2) == 0) tapirvm_worker_close(hand);
        tapirvm_worker_open(&play->board, (uint8_t)drawn(&state, play->workers + 1), hand);
        return false;
    case 2:
        if (drawn(&state, 20) == 0) tapirvm_stop_set(&play->own);
        return false;
    case 3:
        if (drawn(&state, 50) == 0) tapirvm_board_schedule(&play->board, out, sizeof out, &needed);
        return false;
    case 4:
        if (drawn(&state, 20) == 0) meet_strangers(play);
        return false;
    case 5:
    case 6:
    case 7:
    case 8: tapirvm_turn(hand); return false;
    default: meet(play, hand); return false;
    }
}

/* To the end, in good order; whether its answer is there. (A worker has a number of its own here.) */
static bool finish(struct play *play) {
    tapirvm_stop_clear(&play->own);
    tapirvm_board_fuel(&play->board, TAPIRVM_UNBOUNDED);
    for (size_t k = 0; k < play->workers; k++) tapirvm_worker_open(&play->board, (uint8_t)k, &play->hands[k]);
    for (size_t k = 0, offered; k < 100000000; k++) {
        uint32_t status = tapirvm_meet(&play->board, &play->hands[k % play->workers], &offered);
        if (status == TAPIRVM_WORK) tapirvm_turn(&play->hands[k % play->workers]);
        else if (status != TAPIRVM_IDLE) break;
    }
    tapirvm_board_finish(&play->board, play->cells, play->it->cell_count, &play->outcome);
    if (play->outcome.status != TAPIRVM_DONE) is_wrong(play->it, "a run that does not end", play->outcome.status);
    return play->outcome.status == TAPIRVM_DONE;
}

static void run(struct host_case *it, long most, int64_t *cells) {
    struct play play = {.it = it, .cells = cells, .workers = 1 + drawn(&state, 8)};
    play.hand_count = play.workers + drawn(&state, MOST_HANDS - play.workers);
    tapirvm_stop_open(&play.own);
    tapirvm_stop_share(&play.own, &play.stop);
    tapirvm_board_open(&it->kernel, drawn(&state, 1000), &play.stop, it->arguments, it->argument_count, it->begin, it->cell_count, play.workers,
                       &play.outcome, &play.board);
    tapirvm_stop_close(&play.stop);
    if (play.outcome.status != it->serial.status) is_wrong(it, "a begin", play.outcome.status);
    runs++;
    if (play.outcome.status == TAPIRVM_DONE) {
        struct tapirvm_outcome none;
        tapirvm_board_open(&it->kernel, 0, &play.stop, it->arguments, it->argument_count, it->begin, it->cell_count, play.workers, &none, &play.other);
        bool is_same_text = strcmp(it->path, other_path) == 0;
        tapirvm_board_open(&others[is_same_text], 0, &play.stop, cells, 0, other_cells, other_count, 1, &none, &play.foreign);
        tapirvm_worker_open(&play.other, 0, &play.stranger);
        if (tapirvm_worker_open(&play.foreign, 0, &play.foreigner) != TAPIRVM_DONE) is_wrong(it, "a foreigner", none.status);
        for (size_t k = 0; k < play.hand_count; k++) tapirvm_worker_open(&play.board, (uint8_t)(k % (play.workers + 1)), &play.hands[k]);
        bool has_answer = false;
        for (long k = 0; k < most && !has_answer; k++) has_answer = call(&play);
        ended += has_answer;
        if ((has_answer || finish(&play)) && !is_serial(it, &play.outcome, cells)) is_wrong(it, "another answer than the serial one", play.outcome.status);
    }
    for (size_t k = 0; k < MOST_HANDS; k++) tapirvm_worker_close(&play.hands[k]);
    tapirvm_worker_close(&play.stranger);
    tapirvm_worker_close(&play.foreigner);
    tapirvm_board_close(&play.board);
    tapirvm_board_close(&play.other);
    tapirvm_board_close(&play.foreign);
    tapirvm_stop_close(&play.own);
}

int main(int count, char **words) {
    if (count != 4) return 2;
    other_path = words[1];
    other_count = (size_t)open_file(other_path, &others[0]).cells;
    open_seeded(other_path, 7, &others[1]);
    other_cells = new_cells(other_count);
    for (struct host_case it; next_case(stdin, &it); end_case(&it)) {
        int64_t *cells = new_cells(it.cell_count);
        for (long k = strtol(words[2], NULL, 10); k > 0; k--) run(&it, strtol(words[3], NULL, 10), cells);
        free(cells);
    }
    for (int k = 0; k < 2; k++) tapirvm_close(&others[k]);
    free(other_cells);
    printf("%ld runs of %ld calls in a drawn order, %ld ended by them, %ld calls of strangers, %ld differences\n", runs, calls, ended, foreign, wrong);
    return wrong != 0 || runs == 0;
}
