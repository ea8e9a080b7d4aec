/* The verifier and the machine for hosts in C, in the library that `rt lib` makes of crates/tapirvm_c.
 *
 * A host judges the text of a module within some effort, keeps the module in a handle, and runs it as often as it likes: serially within some
 * fuel, row by row over many rows of arguments and cells, on threads of its own, or by a schedule. It may stop a run from another thread, and look
 * up the module's globals and arguments. Beside that stand two calls that judge a text anew and keep nothing, and some that give reasons in words.
 * Calls with structs of their own may be made from several threads at once.
 *
 * The proofs of the library take for granted, and no compiler checks, that the caller keeps these:
 * - No pointer is null, also where its length is 0, and each is aligned for its type. (A null pointer cannot be tested: it has no status.)
 * - At least as many elements as the length says stand there and have been given values, and so has each struct.
 * - During a call nobody else reads or writes the handles, the cells, the verdict, the outcome and the bytes of a text that is written, and nobody
 *   writes the text, the arguments and the schedule. What is written overlaps nothing else of the call.
 * - A handle (of a module, a board, a worker, a stop) is all zeroes (TAPIRVM_NOTHING), or as a call left it. The host writes nothing into it, and
 *   never uses two copies of one: it is moved only where the old place is not used again. It is for one call at a time, in any thread, where a lock,
 *   a start or a join of a thread orders the calls. What a handle holds is lost where it is overwritten by other means than a call.
 * - A worker meets a board of the module that its own board has. (Where the modules' texts or the seeds of their judgements differ, the call answers
 *   TAPIRVM_FOREIGN; the tests hold that, no contract does.)
 * - malloc, realloc and free are of one allocator, and align a block to each power of two up to 16 that divides its size. They may give none at any
 *   time: so a host ends a call that takes too long.
 * - No call is made from a signal handler, or in the child of a process with threads before it executes a program.
 *
 * A handle that is all zeroes is no mistake: the call answers TAPIRVM_CLOSED. What a handle holds is given back by a close, or where a call puts
 * something else there; that nothing is left is no contract, but the tests hold it by valgrind.
 */
#ifndef TAPIRVM_H
#define TAPIRVM_H

#include <stdbool.h>
#include <stddef.h>
#include <stdint.h>

#ifdef __cplusplus
extern "C" {
#endif

/* The version of this header. A host of a shared library goes on where tapirvm_abi answers TAPIRVM_MAJOR, and where tapirvm_minor answers at least
 * TAPIRVM_MINOR: a call that is added raises the minor number, and one that is changed or taken away the major. */
#define TAPIRVM_MAJOR 3
#define TAPIRVM_MINOR 0

uint32_t tapirvm_abi(void);   /* the major number of the library's version */
uint32_t tapirvm_minor(void); /* and the minor one */

/* As an effort or as a fuel: as much as it takes. With an effort of TAPIRVM_UNBOUNDED no call answers TAPIRVM_OUT_OF_EFFORT. */
#define TAPIRVM_UNBOUNDED UINT64_MAX

enum tapirvm_status {
    TAPIRVM_DONE = 0,             /* the module is accepted; the run has ended; what was asked for is there */
    TAPIRVM_REFUSED = 1,          /* the module breaks a rule */
    TAPIRVM_OTHER_CELLS = 2,      /* there are not as many cells as the globals have */
    TAPIRVM_OUT_OF_EFFORT = 3,    /* there is no verdict within the effort; nothing is said of the module */
    TAPIRVM_CLOSED = 4,           /* the handle holds nothing */
    TAPIRVM_OUT_OF_FUEL = 5,      /* the run does more instructions than the fuel allows, or on threads has done as many */
    TAPIRVM_NOT_ENDED = 6,        /* the schedule is over, or nobody works on the board, and the run has not ended */
    TAPIRVM_NO_RULE = 7,          /* no rule has this number */
    TAPIRVM_NOT_FOUND = 8,        /* there is none of this name or number */
    TAPIRVM_FOREIGN = 9,          /* the worker was made by a board of a module that was opened otherwise */
    TAPIRVM_WORK = 10,            /* the worker has a task: tapirvm_turn is next */
    TAPIRVM_IDLE = 11,            /* there is no task for the worker now */
    TAPIRVM_BAD_ARGUMENTS = 801,  /* the arguments are not those of @main */
    TAPIRVM_BAD_WORKERS = 802,    /* there are not from 1 to 64 workers */
    TAPIRVM_OUT_OF_MEMORY = 803,  /* malloc or realloc gave none; nothing is said of the module */
    TAPIRVM_STOPPED = 804,        /* the stop is set */
    TAPIRVM_BAD_SCHEDULE = 901,   /* a line of the schedule is none */
    TAPIRVM_LONG_SCHEDULE = 902   /* with a line the schedule has over 1,048,576 bytes or events */
};

struct tapirvm_verdict {
    uint32_t status; /* TAPIRVM_DONE, _REFUSED, _OUT_OF_EFFORT or _OUT_OF_MEMORY */
    uint16_t rule;   /* where it is refused: the rule, and the line that breaks it, from 1 */
    uint32_t line;
    uint64_t budget; /* where it is accepted: no run does more instructions, though all may do fewer; */
    uint64_t depth;  /* in no serial run do more frames stand on one another; */
    uint64_t cells;  /* and the cells of all its globals together */
};

struct tapirvm_outcome {
    uint32_t status;       /* each call names its statuses */
    uint16_t rule;         /* where the module is refused: the rule, and the line that breaks it, from 1 */
    uint32_t line;         /* where the schedule is bad: its first bad line, from 1 */
    uint64_t requirement;  /* where the arguments are bad: 0 for their number, else the first `requires` of @main that they do not meet, from 1 */
    int64_t result;        /* where the run has ended: what @main returned, */
    uint64_t instructions; /* the instructions that were done, */
    uint64_t peak;         /* and the most frames from the root to a frame that lived; at TAPIRVM_NOT_ENDED both so far */
};

/* A module that is kept, or nothing. */
struct tapirvm_handle {
    bool live; /* whether it holds a module: for the host to read */
    void *at;
};

/* A stop that threads share, or nothing. */
struct tapirvm_stop {
    bool live; /* whether it holds a stop: for the host to read */
    void *at;
};

/* A run on threads, or nothing. */
struct tapirvm_board {
    bool live; /* whether it holds a run: for the host to read */
    void *at;
};

/* A worker of such a run, or nothing. */
struct tapirvm_worker {
    bool live; /* whether it holds a worker: for the host to read */
    void *at;
};

#define TAPIRVM_NOTHING { false, NULL }

/* ---- Kept modules
 *
 * In all calls: the seed is 128 bits that whoever wrote the text does not know. The verifier's tables are hashed by it, and no verdict depends on it.
 * The effort is how many steps of search are paid for. What a text comes to within some effort depends on the text alone.
 * The fuel is the most instructions that a run may do. An answer within it is the serial run's, and TAPIRVM_OUT_OF_FUEL is answered only where the
 * serial run does more.
 * The stop is one that another thread may set, or one that holds nothing: then nobody stops the run.
 * The cells are the numbers of the globals, in the order of the text and each global after the one before it. They are those of the end where the
 * status is TAPIRVM_DONE, and else as they were. */

/* Judges a module and keeps it, where the status is TAPIRVM_DONE; else the handle holds nothing. What it held is given back. */
void tapirvm_open(const uint8_t *text, size_t length, uint64_t seed_low, uint64_t seed_high, uint64_t effort, struct tapirvm_verdict *verdict,
                  struct tapirvm_handle *handle);

/* Runs the serial elision of the module that is kept. TAPIRVM_DONE, _OTHER_CELLS, _CLOSED, _OUT_OF_FUEL, _BAD_ARGUMENTS, _OUT_OF_MEMORY or _STOPPED:
 * the stop is looked at before the first instruction, and again behind each 262,144 at the latest. Where it is not TAPIRVM_DONE nothing is kept of the
 * run: one that is to go on, once the stop is cleared or there is more fuel, is that of a board, also with one worker alone. */
void tapirvm_run(struct tapirvm_handle *handle, uint64_t fuel, struct tapirvm_stop *stop, const int64_t *arguments, size_t argument_count,
                 int64_t *cells, size_t cell_count, struct tapirvm_outcome *outcome);

/* Runs it once for each outcome, as tapirvm_run does, over rows: the first run has the first arguments_each of the arguments and the first
 * cells_each of the cells, the next run those that follow, and so on, and each has the fuel for itself. A row for which too few are left is
 * shorter, so its status is TAPIRVM_BAD_ARGUMENTS or _OTHER_CELLS. What no row has stays as it is. */
void tapirvm_rows(struct tapirvm_handle *handle, uint64_t fuel, struct tapirvm_stop *stop, size_t arguments_each, const int64_t *arguments,
                  size_t argument_count, size_t cells_each, int64_t *cells, size_t cell_count, struct tapirvm_outcome *outcomes,
                  size_t outcome_count);

/* Runs it on so many workers of the model by a schedule: bytes, of which each line, ended by a line feed, is `step W N` or `steal W PATH`.
 * TAPIRVM_DONE, where the run has ended: then the answer is that of the serial run. TAPIRVM_NOT_ENDED with the instructions and the peak so far.
 * _OTHER_CELLS, _CLOSED, _BAD_ARGUMENTS, _BAD_WORKERS, _OUT_OF_MEMORY; _BAD_SCHEDULE or _LONG_SCHEDULE with the line. */
void tapirvm_replay(struct tapirvm_handle *handle, const int64_t *arguments, size_t argument_count, int64_t *cells, size_t cell_count,
                    size_t workers, const uint8_t *schedule, size_t schedule_length, struct tapirvm_outcome *outcome);

/* Keeps in the other handle what this one keeps, so that both may run it at the same time, in two threads. What the other one held is given back.
 * TAPIRVM_DONE, or the other one holds nothing: _CLOSED where this one does, _OUT_OF_MEMORY. */
uint32_t tapirvm_share(struct tapirvm_handle *handle, struct tapirvm_handle *other);

/* Gives back what the handle holds: it holds nothing then. */
void tapirvm_close(struct tapirvm_handle *handle);

/* ---- Stops
 *
 * Runs in several threads look at one stop, and any thread sets it: each thread has a handle of its own on it, by tapirvm_stop_share. (A word of the
 * host's own memory will not do: the library reads what it shares with other threads only behind handles of its own.) A handle that holds nothing
 * stops nothing. A signal handler sets a flag of the host's, and a thread that sees that flag sets the stop. */

/* Makes a stop that is not set. What the handle held is given back. TAPIRVM_DONE, or it holds nothing: _OUT_OF_MEMORY. */
uint32_t tapirvm_stop_open(struct tapirvm_stop *stop);

/* Another handle on the same stop, for another thread. TAPIRVM_DONE, or the other one holds nothing: _CLOSED where this one does, _OUT_OF_MEMORY. */
uint32_t tapirvm_stop_share(struct tapirvm_stop *stop, struct tapirvm_stop *other);

/* Sets it: who looks at it next stops. Or clears it: who is told to go on goes on. TAPIRVM_DONE or _CLOSED. */
uint32_t tapirvm_stop_set(struct tapirvm_stop *stop);
uint32_t tapirvm_stop_clear(struct tapirvm_stop *stop);

/* Whether it is set: false where the handle holds nothing. */
bool tapirvm_stop_is_set(struct tapirvm_stop *stop);

/* Gives back what this handle holds; others on the same stop keep theirs. */
void tapirvm_stop_close(struct tapirvm_stop *stop);

/* ---- Runs on threads
 *
 * The host brings threads and a lock, the library a board and workers. Each thread has a worker and loops: tapirvm_meet under the lock, then, at
 * TAPIRVM_WORK, tapirvm_turn without it. At TAPIRVM_IDLE it waits until others have offered tasks, or a little, and meets the board again.
 *
 *     for (;;) {
 *         lock(); status = tapirvm_meet(&board, &worker, &offered); unlock();
 *         if (status == TAPIRVM_WORK) tapirvm_turn(&worker);
 *         else if (status == TAPIRVM_IDLE) wait_a_little();
 *         else break;
 *     }
 *
 * (tapirvm_run_threads in tapirvm_threads.h does all of it by threads of POSIX.)
 *
 * Whatever calls were made before, in whatever order and by how many threads: where tapirvm_board_finish answers TAPIRVM_DONE, the answer is the
 * serial run's. Two workers of one number, a worker that is closed in the middle, turns and meetings in any order are no mistake. That a run ends is no
 * contract: it does not where a worker that has a task is lost, until another one of its number meets the board, which does that work again.
 *
 * A run that is stopped or out of fuel is kept by the board and goes on with the next meetings, once the stop is cleared or the board has more fuel,
 * also by new workers of the same numbers: what the old ones did since they last put something on the board is then done again.
 *
 * A board and a worker keep the module by themselves: the handle that the board was made by may be closed before them, and the board before its
 * workers. All calls with a board are made under its lock. */

/* Begins a run of the module that is kept, on so many workers, from the cells. The board and its workers look at the stop from then on, without the
 * handle. TAPIRVM_DONE, or the board holds nothing: _CLOSED, _OTHER_CELLS, _BAD_ARGUMENTS, _BAD_WORKERS, _OUT_OF_MEMORY. What it held is given back. */
void tapirvm_board_open(struct tapirvm_handle *handle, uint64_t fuel, struct tapirvm_stop *stop, const int64_t *arguments, size_t argument_count,
                        const int64_t *cells, size_t cell_count, size_t workers, struct tapirvm_outcome *outcome, struct tapirvm_board *board);

/* Makes the run's worker of this number, from 0; one of a number that is not below the workers finds no task. What the worker held is given back.
 * TAPIRVM_DONE, or it holds nothing: _CLOSED where the board does, _OUT_OF_MEMORY. */
uint32_t tapirvm_worker_open(struct tapirvm_board *board, uint8_t number, struct tapirvm_worker *worker);

/* Under the host's lock: does at the board what the worker wants. It needs no memory for the handles.
 * TAPIRVM_WORK: tapirvm_turn is next, then this again. _IDLE: there is no task for it now. _DONE: the run has ended. _STOPPED: the stop is set, and
 * nothing was done. _OUT_OF_FUEL: as many instructions are on the board as the fuel allows, and nobody begins more; those of the one meeting that came
 * to the fuel may pass it, by 67,000 at most. A run that does no more than its fuel never comes to it. _OUT_OF_MEMORY: the run cannot go on, for any
 * worker. _CLOSED: one of the handles holds nothing. _FOREIGN. `offered` says how many tasks others may take now. */
uint32_t tapirvm_meet(struct tapirvm_board *board, struct tapirvm_worker *worker, size_t *offered);

/* Without the lock: the worker goes on by itself, 65,536 instructions at most, unless the stop is set, which it looks at before the first and behind
 * each 1,000. TAPIRVM_DONE: tapirvm_meet is next. _STOPPED, _CLOSED. */
uint32_t tapirvm_turn(struct tapirvm_worker *worker);

/* Grants more fuel: at most TAPIRVM_UNBOUNDED in all. TAPIRVM_DONE or _CLOSED. */
uint32_t tapirvm_board_fuel(struct tapirvm_board *board, uint64_t more);

/* Writes what the run has done so far, as a schedule: tapirvm_replay takes it, with the same arguments, cells and workers, to where the board is, and
 * where the run has ended to the answer of tapirvm_board_finish, which is to be called after this one. As many bytes are written as there is room for,
 * and `needed` says how many there are. TAPIRVM_DONE; else nothing is written and `needed` is 0: _CLOSED, _OUT_OF_MEMORY, or _LONG_SCHEDULE where there
 * are over 1,048,576 bytes or events. */
uint32_t tapirvm_board_schedule(struct tapirvm_board *board, uint8_t *out, size_t room, size_t *needed);

/* TAPIRVM_DONE, where the run has ended: the answer is that of the serial run, and the board holds nothing. _NOT_ENDED with the instructions on the
 * board and the peak so far, and _OTHER_CELLS: the board keeps the run. _OUT_OF_MEMORY: the run is lost, and the board holds nothing. _CLOSED. */
void tapirvm_board_finish(struct tapirvm_board *board, int64_t *cells, size_t cell_count, struct tapirvm_outcome *outcome);

/* Give back what the board holds, and what the worker does. */
void tapirvm_board_close(struct tapirvm_board *board);
void tapirvm_worker_close(struct tapirvm_worker *worker);

/* ---- Looking inside
 *
 * Names are bytes without the @ or % before them. As many bytes of a name are written as there is room for, without a 0 at the end, and `needed` says
 * how many there are; where there is no name it is 0, and nothing is written. */

/* What @main's `requires` say of one argument, as far as they set it alone against a number, as `%n >= 1`. Without such a bound the number is 0. */
struct tapirvm_range {
    bool has_low;
    bool has_high;
    int64_t low;  /* the greatest of the low bounds: no argument below it is taken, */
    int64_t high; /* and the least of the high ones */
};

/* How many globals, and how many arguments of @main, the module has: 0 where the handle holds nothing. */
size_t tapirvm_globals(struct tapirvm_handle *handle);
size_t tapirvm_arguments(struct tapirvm_handle *handle);

/* A frame of a run has at most so many cells of its own; beside them it has its registers. 0 where the handle holds nothing. */
uint64_t tapirvm_frame_cells(struct tapirvm_handle *handle);

/* Where the cells of the global of this name begin in the row of all cells, and how many it has. TAPIRVM_DONE; else both are 0: _CLOSED, _NOT_FOUND. */
uint32_t tapirvm_global(struct tapirvm_handle *handle, const uint8_t *name, size_t length, uint64_t *first, uint64_t *cells);

/* The same of the global of this number, from 0, with its name. TAPIRVM_DONE, _CLOSED or _NOT_FOUND. */
uint32_t tapirvm_global_at(struct tapirvm_handle *handle, size_t number, uint8_t *out, size_t room, size_t *needed, uint64_t *first,
                           uint64_t *cells);

/* The name of the argument of this number, from 0, and what `requires` says of it. TAPIRVM_DONE; else the range has no bound: _CLOSED, _NOT_FOUND.
 * (That the name is the text's, and that no bound is left out, is no contract: the tests hold it. A program keeps no names of registers.) */
uint32_t tapirvm_argument_at(struct tapirvm_handle *handle, size_t number, uint8_t *out, size_t room, size_t *needed, struct tapirvm_range *range);

/* ---- A text that is judged anew by each call */

/* Judges a module. */
void tapirvm_verify(const uint8_t *text, size_t length, uint64_t seed_low, uint64_t seed_high, uint64_t effort, struct tapirvm_verdict *verdict);

/* Judges a module and runs its serial elision. The statuses of tapirvm_run but _CLOSED and _STOPPED, and TAPIRVM_REFUSED and _OUT_OF_EFFORT. */
void tapirvm_serial(const uint8_t *text, size_t length, uint64_t seed_low, uint64_t seed_high, uint64_t effort, uint64_t fuel,
                    const int64_t *arguments, size_t argument_count, int64_t *cells, size_t cell_count, struct tapirvm_outcome *outcome);

/* ---- Reasons in words
 *
 * As many bytes are written as there is room for, without a 0 at the end, and `needed` says how many there are. Where the status brings no words it
 * is 0, and nothing is written. The words are UTF-8; a rule and a reason are lines that end with a line feed, a version and a status are not. */

/* The library's version: "3.0". */
void tapirvm_version(uint8_t *out, size_t room, size_t *needed);

/* A sentence that says what a status means. TAPIRVM_DONE with words; _NOT_FOUND without: no status has this number. */
uint32_t tapirvm_words(uint32_t status, uint8_t *out, size_t room, size_t *needed);

/* A rule with an example and how to mend it. TAPIRVM_DONE with words; _NO_RULE or _OUT_OF_MEMORY without. */
uint32_t tapirvm_rule(uint16_t number, uint8_t *out, size_t room, size_t *needed);

/* Why a module is refused, or what it could do without, as far as the effort reaches: what `tapirvm explain` prints. TAPIRVM_DONE where it is
 * accepted, TAPIRVM_REFUSED or _OUT_OF_EFFORT, with words; _OUT_OF_MEMORY without. */
uint32_t tapirvm_explain(const uint8_t *text, size_t length, uint64_t seed_low, uint64_t seed_high, uint64_t effort, uint8_t *out, size_t room,
                         size_t *needed);

#ifdef __cplusplus
}
#endif

#endif
