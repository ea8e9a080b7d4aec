/* A run of a module that is kept, on threads of POSIX that begin and end within the call, over the calls of tapirvm.h.
 *
 * This file and tapirvm_threads.c are plain C, and nothing in them is proved. They cannot make an answer wrong: tapirvm_board_finish answers what the
 * serial run does, whatever meetings and turns came before and in whatever order. What they owe is what tapirvm.h asks of every host: a lock around
 * the calls on the board, no worker in two calls at once, and no worker at another run's board. */
#ifndef TAPIRVM_THREADS_H
#define TAPIRVM_THREADS_H

#include "tapirvm.h"

#ifdef __cplusplus
extern "C" {
#endif

/* The most workers of a run. */
#define TAPIRVM_MOST_WORKERS 64

/* A run and its workers, or nothing (all zeroes). It is for one call at a time, and moved only where the old place is not used again. */
struct tapirvm_crew {
    struct tapirvm_board board;
    size_t count; /* of the workers */
    struct tapirvm_worker workers[TAPIRVM_MOST_WORKERS];
};

/* Runs the module that is kept on so many workers, from 1 to 64: the caller's thread, and others from the first meeting on that offers them a task.
 * All of them have ended when it returns. Where a thread cannot be had, there are fewer. Fuel and stop are as of tapirvm_board_open.
 * TAPIRVM_DONE: the answer and the cells are those of the serial run. Else the cells are as they were: _OUT_OF_FUEL or _STOPPED with the instructions
 * and the peak so far; _CLOSED, _OTHER_CELLS, _BAD_ARGUMENTS, _BAD_WORKERS, _OUT_OF_MEMORY. */
void tapirvm_run_threads(struct tapirvm_handle *handle, size_t workers, uint64_t fuel, struct tapirvm_stop *stop, const int64_t *arguments,
                         size_t argument_count, int64_t *cells, size_t cell_count, struct tapirvm_outcome *outcome);

/* The same in steps, for a run that is to go on after it was stopped or was out of fuel, or whose schedule is wanted. Between these calls a host may
 * make those of tapirvm.h on the crew's board: more fuel by tapirvm_board_fuel, the schedule by tapirvm_board_schedule and then the answer by
 * tapirvm_board_finish.
 *
 * Begins a run as tapirvm_board_open does: TAPIRVM_DONE, or the crew holds nothing. What it held is given back. */
void tapirvm_crew_open(struct tapirvm_handle *handle, size_t workers, uint64_t fuel, struct tapirvm_stop *stop, const int64_t *arguments,
                       size_t argument_count, const int64_t *cells, size_t cell_count, struct tapirvm_outcome *outcome, struct tapirvm_crew *crew);

/* Goes on, on as many threads, until the run has ended (TAPIRVM_DONE), is stopped (_STOPPED) or is out of fuel (_OUT_OF_FUEL). Else _CLOSED, or
 * _OUT_OF_MEMORY: no memory or no thread for a worker that has begun something. What workers had begun they take up again in the next call. */
uint32_t tapirvm_crew_run(struct tapirvm_crew *crew);

/* Gives back what the crew holds. */
void tapirvm_crew_close(struct tapirvm_crew *crew);

#ifdef __cplusplus
}
#endif

#endif
