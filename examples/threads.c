/* Threads over one shared list of sums, on a net that the program makes itself: a chain of 1,000 rows, diagonal 2,
 * neighbours -1, each row moved by as many micrometres as its number.
 *
 *     gcc -O2 -pthread -Iinclude examples/threads.c target/staticlib/libmazhoketh.a -o target/threads
 *     target/threads
 *
 * The job is prepared once. Then four threads pick themselves, a load or store at a time, in whatever order they come
 * to the lock; one that waits sleeps until another has moved. Says whether the forces are those of one core, as they
 * are proved to be. */

#include <pthread.h>
#include <sched.h>
#include <stdio.h>
#include <string.h>

#include "mazhoketh.h"

enum { ROWS = 1000, ENTRIES = 3 * ROWS - 2, WORKERS = 4 };

static uint8_t starts[4 * (ROWS + 1)], columns[4 * ENTRIES], values[4 * ENTRIES], movements[4 * ROWS];
static uint8_t order[4 * ROWS], groups[4 * MZK_GROUP_FIELDS * MZK_GROUPS];
static uint8_t prepared[MZK_PREPARED_BYTES];
static size_t prepared_bytes;

/* The run, which the lock guards. */
static uint8_t state[MZK_STATE_BYTES], sums[8 * ROWS];
static pthread_mutex_t lock = PTHREAD_MUTEX_INITIALIZER;
static pthread_cond_t moved = PTHREAD_COND_INITIALIZER;

#define MATRIX ROWS, starts, sizeof starts, columns, sizeof columns, values, sizeof values
#define MOVEMENTS movements, sizeof movements
#define PLAN order, sizeof order, groups, sizeof groups
#define JOB prepared, prepared_bytes
#define AT state, sizeof state, sums, sizeof sums

/* Puts a number of 32 bits at an index of a list, low byte first. */
static void put(uint8_t *list, uint32_t index, int32_t number)
{
    for (int byte = 0; byte < 4; byte++)
        list[4 * index + byte] = (uint32_t)number >> 8 * byte;
}

/* Makes the chain in full rows, each by ascending column. */
static void make_chain(void)
{
    uint32_t entry = 0;
    for (uint32_t row = 0; row < ROWS; row++) {
        for (uint32_t column = row > 0 ? row - 1 : 0; column <= row + 1 && column < ROWS; column++) {
            put(columns, entry, column);
            put(values, entry++, column == row ? 2 : -1);
        }
        put(starts, row + 1, entry);
        put(movements, row, row);
    }
}

/* Picks a worker once, as soon as it can move; the number of the refusal, 0 if it has moved. */
static uint32_t pick(const uint8_t *worker)
{
    uint32_t number;
    pthread_mutex_lock(&lock);
    while ((number = MZK_NUMBER(mzk_prepared_picks(JOB, AT, worker, 1))) == MZK_WAITS)
        pthread_cond_wait(&moved, &lock);
    pthread_cond_broadcast(&moved);
    pthread_mutex_unlock(&lock);
    return number;
}

/* A worker's thread: it picks itself until all its moves are made. */
static void *work(void *worker)
{
    while (pick(worker) == MZK_ACCEPTED)
        sched_yield(); /* lets the others in */
    return NULL;
}

int main(void)
{
    static uint8_t forces[8 * ROWS], product[8 * ROWS];
    uint8_t names[WORKERS] = { 0, 1, 2, 3 };
    pthread_t threads[WORKERS];
    pthread_attr_t attributes;
    make_chain();
    uint32_t group_count = MZK_COUNT(mzk_plan(MATRIX, WORKERS, 60, 2, PLAN));
    prepared_bytes = MZK_COUNT(mzk_prepare(MATRIX, MOVEMENTS, PLAN, group_count, prepared, sizeof prepared));
    pthread_attr_init(&attributes);
    pthread_attr_setstacksize(&attributes, 2 * MZK_STACK_BYTES);
    for (int k = 0; k < WORKERS; k++)
        if (pthread_create(&threads[k], &attributes, work, &names[k]) != 0)
            return 3;
    for (int k = 0; k < WORKERS; k++)
        pthread_join(threads[k], NULL);
    uint64_t finished = mzk_prepared_forces(JOB, AT, forces, sizeof forces);
    mzk_product(MATRIX, MOVEMENTS, product, sizeof product);
    int same = MZK_NUMBER(finished) == MZK_ACCEPTED && memcmp(forces, product, sizeof forces) == 0;
    printf("%u groups, forces %s on one core\n", group_count, same ? "as" : "NOT as");
    return same ? 0 : 1;
}
