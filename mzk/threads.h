/* The run of a plan over one shared list of sums: by threads that serve its workers, by rounds, or by given picks. */
#ifndef THREADS_H
#define THREADS_H

#include <pthread.h>

#include "jobs.h"
#include "picks.h"
#include "progress.h"

/* A crew: its movements, its job, the state and the sums of its run, its forces, and those that one core finds. */
struct crew {
    struct movements movements;
    struct job job;
    uint8_t state[MZK_STATE_BYTES], sums[8 * MZK_ROWS], forces[8 * MZK_ROWS], product[8 * MZK_ROWS];
};

/* A run of one crew or two, and the picks that are given, if any. The lock guards states, sums and progress; `moved`
 * tells that they have changed. */
struct run {
    struct net net;
    struct plan plan;
    struct crew crew[2];
    int crews;
    uint8_t workers;
    struct picks picks;
    struct progress progress;
    pthread_mutex_t lock;
    pthread_cond_t moved;
};

/* The arguments that hand the state and the sums of a crew's run to a call. */
#define AT(run, crew) (crew)->state, sizeof (crew)->state, FORCES(&(run)->net, (crew)->sums)

/* Runs the plan for all crews by so many threads, which share the workers out. */
void run_threads(struct run *run, uint8_t threads);

/* Runs it for one crew by rounds: all workers in turn, those passed over that cannot move. */
void run_rounds(struct run *run);

/* Takes the given picks for all crews, in turn. */
void run_picks(struct run *run);

#endif
