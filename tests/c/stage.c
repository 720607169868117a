/* A stage of pulling, timed: stage MATRIX WORKERS THREADS PRODUCTS
 *
 * A list is prepared once for movements 1; then threads that stay make product after product, each with new movements,
 * over one list of sums without a lock. Says the least and the middle time of each part in microseconds, and how many
 * products were not those of mzk_product. Thread k stays on core k. Linux:
 *
 *     gcc -std=c11 -D_GNU_SOURCE -DVERSION='""' -O2 -pthread -Iinclude tests/c/stage.c \
 *         mzk/{workers,nets,lists,files,refusals}.c target/staticlib/libmazhoketh.a -o target/stage
 *     target/stage data/roof_1300.mtx 2 2 400 */

#include <sched.h>
#include <stdio.h>
#include <stdlib.h>
#include <string.h>
#include <time.h>
#include <unistd.h>

#include "../../mzk/nets.h"
#include "../../mzk/workers.h"

enum { MOST = 100000 };

static struct net net;
static uint8_t order[4 * MZK_ROWS], groups[4 * MZK_GROUP_FIELDS * MZK_GROUPS], movements[4 * MZK_ROWS];
static uint8_t unit[MZK_PREPARED_BYTES], state[MZK_STATE_BYTES], sums[8 * MZK_ROWS];
static uint8_t forces[8 * MZK_ROWS], product[8 * MZK_ROWS];
static struct tables tables;
static struct course course;
static struct bell bell;
static _Atomic uint32_t begun, done;
static _Atomic bool is_over;

static double now(void)
{
    struct timespec time;
    clock_gettime(CLOCK_MONOTONIC, &time);
    return time.tv_sec * 1e6 + time.tv_nsec / 1e3;
}

static int by_size(const void *a, const void *b)
{
    double first = *(const double *)a, second = *(const double *)b;
    return (first > second) - (first < second);
}

static void say(const char *what, double *times, int count)
{
    qsort(times, count, sizeof *times, by_size);
    printf("  %-42s least %7.1f  middle %7.1f\n", what, times[0], times[count / 2]);
}

static void stay_on(uint32_t core)
{
    cpu_set_t cores;
    CPU_ZERO(&cores);
    CPU_SET(core % sysconf(_SC_NPROCESSORS_ONLN), &cores);
    pthread_setaffinity_np(pthread_self(), sizeof cores, &cores);
}

static void wait_for(_Atomic uint32_t *number, uint32_t wanted)
{
    for (int times = 0; atomic_load_explicit(number, memory_order_acquire) < wanted; times++)
        if (times > 3000)
            sched_yield();
}

static void *serve(void *argument)
{
    uint32_t thread = *(uint32_t *)argument;
    stay_on(thread);
    for (uint32_t turn = 1; wait_for(&begun, turn), !is_over; turn++) {
        serve_courses(&course, 1, thread);
        atomic_fetch_add_explicit(&done, 1, memory_order_release);
    }
    return NULL;
}

static uint64_t prepare(uint64_t plan)
{
    return mzk_prepare(MATRIX(&net), movements, 4 * (size_t)net.n, order, 4 * (size_t)net.n, groups, sizeof groups,
                       MZK_COUNT(plan), unit, sizeof unit);
}

int main(int count, char **words)
{
    static double prepared[MOST], ready[MOST], worked[MOST], listed[MOST], alone[MOST];
    if (count != 5)
        return 2;
    uint32_t workers = atoi(words[2]), threads = atoi(words[3]), products = atoi(words[4]), wrong = 0;
    uint32_t numbers[MZK_WORKERS];
    pthread_t ids[MZK_WORKERS];
    read_matrix(&net, words[1]);
    uint64_t plan = mzk_plan(MATRIX(&net), workers, 60, 2, order, sizeof order, groups, sizeof groups), job = 0;
    for (uint32_t row = 0; row < net.n; row++)
        put_number(movements + 4 * row, 1);
    for (uint32_t k = 0; k < products; k++) {
        double begin = now();
        job = prepare(plan);
        prepared[k] = now() - begin;
    }
    double begin = now();
    make_tables(&tables, unit);
    printf("%s, %u workers, %u threads, tables made in %.1f\n", words[1], workers, threads, now() - begin);
    open_bell(&bell);
    open_course(&course, &tables, threads, &bell);
    stay_on(0);
    for (uint32_t k = 1; k < threads; k++) {
        numbers[k] = k;
        pthread_create(&ids[k], NULL, serve, &numbers[k]);
    }
    for (uint32_t k = 0; k < products; k++) {
        for (uint32_t row = 0; row < net.n; row++)
            put_number(movements + 4 * row, rand() % 2000001 - 1000000);
        double first = now();
        begin_course(&course, movements);
        double second = now();
        atomic_store_explicit(&begun, k + 1, memory_order_release);
        serve_courses(&course, 1, 0);
        wait_for(&done, (k + 1) * (threads - 1));
        double third = now();
        put_course(&course, state, sums);
        uint64_t word = mzk_prepared_forces(unit, MZK_COUNT(job), state, sizeof state, FORCES(&net, sums),
                                            FORCES(&net, forces));
        double fourth = now();
        mzk_product(MATRIX(&net), movements, 4 * (size_t)net.n, FORCES(&net, product));
        alone[k] = now() - fourth;
        wrong += MZK_NUMBER(word) != MZK_ACCEPTED || memcmp(forces, product, 8 * (size_t)net.n) != 0;
        ready[k] = second - first;
        worked[k] = third - second;
        listed[k] = fourth - third;
    }
    is_over = true;
    begun = products + 1;
    for (uint32_t k = 1; k < threads; k++)
        pthread_join(ids[k], NULL);
    say("mzk_prepare", prepared, products);
    say("movements into plan order, sums cleared", ready, products);
    say("the moves, by threads", worked, products);
    say("state and sums put, mzk_prepared_forces", listed, products);
    say("mzk_product on one core", alone, products);
    printf("  %u of %u products wrong\n", wrong, products);
    return wrong > 0;
}
