/* The workers of a plan over one shared list of sums, by threads without a lock; for product after product.
 *
 * A worker works its rows in turn, with plain loads and stores. Before a row it looks whether every worker has shown as
 * many moves as the row's gate asks for; rows that follow each other behind one gate are a stretch, and after a stretch
 * it shows its own moves. That this is enough is theorem race_free (crates/prepared/specs/RaceFree.antt): any two
 * accesses of different workers to one sum are ordered by the gates, so there is no data race; and every course that
 * workers take is a run of document 01's machine that refuses no pick, so no sum passes 64 bits, the sums are the
 * product at the end, and until then somebody gets on once all have shown their moves.
 *
 * Gates, targets and entries are those of a list that mzk_prepare made for movements that are all 1, unchanged: nothing
 * in it is judged. It serves all movements: theorem other-movements (crates/prepared/specs/Movements.antt). Movements
 * are such as mzk_product takes. */
#ifndef WORKERS_H
#define WORKERS_H

#include <pthread.h>
#include <stdatomic.h>

#include "mazhoketh.h"

/* An update: it adds an entry times the movement at a plan position to the sum at another. */
struct update {
    int32_t entry;
    uint16_t target, source;
};

/* Updates of one worker behind one gate: where they end, and the moves that each worker must have made before. */
struct stretch {
    uint32_t end, gate[MZK_WORKERS];
};

/* What a matrix and a plan come to. Threads only read it. */
struct tables {
    uint32_t rows, workers;
    uint32_t first[MZK_WORKERS + 1], first_stretch[MZK_WORKERS + 1]; /* of each worker, and past the last */
    uint32_t places[MZK_ROWS];                                       /* the plan position of each row */
    struct update updates[MZK_ROWS + 2 * MZK_STORED];
    struct stretch stretches[MZK_ROWS];
};

/* The moves that a worker has shown, and the number that it holds, on a line of the cache of its own. */
struct shown {
    _Alignas(64) _Atomic uint32_t moves;
    int64_t held;
};

/* Where threads sleep that find nothing to do; `sleepers` says whether there is anybody to tell of news. */
struct bell {
    _Alignas(64) _Atomic uint32_t sleepers;
    pthread_mutex_t lock;
    pthread_cond_t news;
};

/* A run by so many threads: movements and sums by plan position. */
struct course {
    const struct tables *tables;
    struct bell *bell;
    uint32_t threads, spins;
    int32_t movements[MZK_ROWS];
    int64_t sums[MZK_ROWS];
    struct shown shown[MZK_WORKERS];
};

/* Makes the tables of a list that was prepared for movements 1. The list is not needed after it. */
void make_tables(struct tables *tables, const uint8_t *list);

/* Makes ready for runs by threads 0 to `threads` - 1. Tables and bell stay with the caller; courses may share them. */
void open_course(struct course *course, const struct tables *tables, uint32_t threads, struct bell *bell);

/* Begins a run, when no thread serves: no moves made, all sums 0. The movements are in bytes, one for each row. */
void begin_course(struct course *course, const uint8_t *movements);

/* A thread's part of a run, or of two for two crews, with the same tables, threads and bell: it serves its share of the
 * workers until all their moves are made, and a worker finishes a row before it serves the other crew. When each thread
 * has done its part the runs are finished. */
void serve_courses(struct course *courses, uint32_t crews, uint32_t thread);

/* Puts a finished run into the bytes of a state and of sums, as calls take them. */
void put_course(const struct course *course, uint8_t *state, uint8_t *sums);

void open_bell(struct bell *bell);
void close_bell(struct bell *bell);

#endif
