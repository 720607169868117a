/* Workers without a lock (mzk/workers.h), many times over: stress [--open-gate] TIMES MATRIX ..
 *
 * For each matrix, plans of 2 to 16 workers are run by 1 to 16 threads for random movements. Each run has to leave the
 * state and the sums, byte for byte, of a run by proved calls in rounds, held numbers too: the gates order every two
 * accesses to one sum, so each load finds the same number whatever the order of the rest. With --open-gate one gate of
 * each list is opened first: then runs are expected to differ. Says how many runs there were, how many
 * differed, and how many of these in sums. */

#include <stdio.h>
#include <stdlib.h>
#include <string.h>

#include "../../mzk/nets.h"
#include "../../mzk/workers.h"

static struct net net;
static uint8_t order[4 * MZK_ROWS], groups[4 * MZK_GROUP_FIELDS * MZK_GROUPS], movements[4 * MZK_ROWS];
static uint8_t list[MZK_PREPARED_BYTES], ones[4 * MZK_ROWS], unit[MZK_PREPARED_BYTES];
static uint8_t state[MZK_STATE_BYTES], bytes[8 * MZK_ROWS], wanted[MZK_STATE_BYTES], wanted_sums[8 * MZK_ROWS];
static struct tables tables;
static struct course course;
static struct bell bell;

#define PLACES order, sizeof order, groups, sizeof groups
#define PLANNED order, 4 * (size_t)net.n, groups, sizeof groups
#define MOVED(moved) (moved), 4 * (size_t)net.n

static void *serve(void *thread)
{
    serve_courses(&course, 1, *(uint32_t *)thread);
    return NULL;
}

static void run_all(uint32_t threads)
{
    pthread_t ids[MZK_WORKERS];
    uint32_t numbers[MZK_WORKERS];
    open_course(&course, &tables, threads, &bell);
    begin_course(&course, movements);
    for (uint32_t k = 0; k < threads; k++) {
        numbers[k] = k;
        if (pthread_create(&ids[k], NULL, serve, &numbers[k]) != 0)
            exit(3);
    }
    for (uint32_t k = 0; k < threads; k++)
        pthread_join(ids[k], NULL);
    put_course(&course, state, bytes);
}

/* The run by proved calls. */
static void run_proved(size_t length, uint32_t workers)
{
    uint8_t picks[999];
    uint32_t moves;
    for (size_t k = 0; k < sizeof picks; k++)
        picks[k] = k % workers;
    memset(wanted, 0, sizeof wanted);
    memset(wanted_sums, 0, sizeof wanted_sums);
    do
        moves = MZK_MOVES(mzk_prepared_rounds(list, length, wanted, sizeof wanted, FORCES(&net, wanted_sums), picks,
                                              sizeof picks));
    while (moves > 0);
}

/* Opens one gate that is not open from the first: that of all rows behind it. */
static void open_gate(size_t length)
{
    uint32_t rows = number_in(unit + 4, 4), chosen = 0;
    uint8_t *gates = unit + length - 68 * (size_t)rows, gate[64], none[64] = { 0 };
    for (uint32_t try = 0; try < 1000 && memcmp(gates + 64 * chosen, none, 64) == 0; try++)
        chosen = rand() % rows;
    memcpy(gate, gates + 64 * chosen, 64);
    for (uint32_t row = 0; row < rows; row++)
        if (memcmp(gates + 64 * row, gate, 64) == 0)
            memset(gates + 64 * row, 0, 64);
}

int main(int count, char **words)
{
    bool is_broken = count > 1 && strcmp(words[1], "--open-gate") == 0;
    int first = is_broken ? 2 : 1, runs = 0, different = 0, wrong = 0, times = atoi(words[first]);
    open_bell(&bell);
    for (int word = first + 1; word < count; word++) {
        read_matrix(&net, words[word]);
        for (int time = 0; time < times; time++) {
            uint32_t workers = 2 + rand() % 15, threads = 1 + rand() % workers;
            for (uint32_t row = 0; row < net.n; row++) {
                int32_t moved = rand() % 2000001 - 1000000;
                put_number(movements + 4 * (size_t)row, (uint32_t)moved);
                put_number(ones + 4 * (size_t)row, 1);
            }
            uint64_t plan = mzk_plan(MATRIX(&net), workers, 50 + rand() % 50, 2, PLACES);
            uint64_t job = mzk_prepare(MATRIX(&net), MOVED(movements), PLANNED, MZK_COUNT(plan), list, sizeof list);
            uint64_t all = mzk_prepare(MATRIX(&net), MOVED(ones), PLANNED, MZK_COUNT(plan), unit, sizeof unit);
            if (MZK_NUMBER(plan) + MZK_NUMBER(job) + MZK_NUMBER(all) != MZK_ACCEPTED)
                return 3;
            run_proved(MZK_COUNT(job), workers);
            if (is_broken)
                open_gate(MZK_COUNT(all));
            make_tables(&tables, unit);
            for (int again = 0; again < 5; again++, runs++) {
                run_all(threads);
                bool has_sums = memcmp(bytes, wanted_sums, 8 * (size_t)net.n) == 0;
                different += !has_sums || memcmp(state, wanted, sizeof state) != 0;
                wrong += !has_sums;
            }
        }
    }
    close_bell(&bell);
    printf("%d runs, %d differed, %d in sums\n", runs, different, wrong);
    return different == 0 ? 0 : 1;
}
