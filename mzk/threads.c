#include "threads.h"

#include <sched.h>
#include <stdlib.h>
#include <string.h>

/* How many picks a list has before others are let in. It is odd, so that lists end between a load and its store. A call
 * for two crews judges all its lists anew, so there it is long. Calls keep tables in local arrays: threads have a stack
 * of twice what a call needs. */
enum { PICKS = 15, LONG = 999, STACK = 2 * MZK_STACK_BYTES };

/* A thread, and the picks that it makes: for each of its workers and each crew the byte that names them. */
struct thread {
    struct run *run;
    pthread_t id;
    uint8_t picks[2 * MZK_WORKERS];
    int left;
};

/* Takes picks for all crews; the call's word. */
static uint64_t take(struct run *run, const uint8_t *picks, size_t count)
{
    struct crew *first = &run->crew[0], *second = &run->crew[1];
    if (run->crews == 1)
        return mzk_prepared_picks(PREPARED(&first->job), AT(run, first), picks, count);
    return mzk_picks_both(MATRIX(&run->net), MOVEMENTS(&first->movements), MOVEMENTS(&second->movements),
                          PLAN(&run->plan), AT(run, first), AT(run, second), picks, count);
}

/* Picks a worker for a crew, a list of times; the call's word. */
static uint64_t pick(struct run *run, uint8_t named)
{
    uint8_t picks[LONG];
    memset(picks, named, sizeof picks);
    return take(run, picks, run->crews == 1 ? PICKS : LONG);
}

/* Serves each worker and crew of a thread once, and lets go of those that have made all moves; whether one moved. */
static bool serve_each(struct thread *thread)
{
    struct run *run = thread->run;
    bool has_moved = false;
    for (int k = thread->left; k-- > 0;) {
        uint64_t word = pick(run, thread->picks[k]);
        uint32_t number = MZK_NUMBER(word);
        if (number == MZK_DONE)
            thread->picks[k] = thread->picks[--thread->left];
        else if (number != MZK_WAITS && number != MZK_ELSEWHERE)
            accepted(&run->picks.list.text, word);
        add_progress(&run->progress, MZK_COUNT(word)); /* accepted or stopped, so many picks were taken */
        has_moved = has_moved || MZK_COUNT(word) > 0;
    }
    return has_moved;
}

/* A thread's work: it serves its workers until they are done, and sleeps while none of them can move. */
static void *serve(void *argument)
{
    struct thread *thread = argument;
    struct run *run = thread->run;
    pthread_mutex_lock(&run->lock);
    while (thread->left > 0) {
        if (serve_each(thread)) {
            pthread_cond_broadcast(&run->moved);
            pthread_mutex_unlock(&run->lock);
            sched_yield(); /* lets the others in */
            pthread_mutex_lock(&run->lock);
        } else if (thread->left > 0) {
            pthread_cond_wait(&run->moved, &run->lock);
        }
    }
    pthread_mutex_unlock(&run->lock);
    return NULL;
}

/* Shares the workers out: a worker is served by one thread for all crews. */
static void share_out(struct run *run, struct thread *thread, uint8_t threads)
{
    for (uint8_t worker = 0; worker < run->workers; worker++) {
        struct thread *server = &thread[worker % threads];
        for (int crew = 0; crew < run->crews; crew++)
            server->picks[server->left++] = MZK_PICK(crew, worker);
        server->run = run;
    }
}

void run_threads(struct run *run, uint8_t threads)
{
    struct thread thread[MZK_WORKERS] = { { .left = 0 } };
    pthread_attr_t attributes;
    share_out(run, thread, threads);
    pthread_mutex_init(&run->lock, NULL);
    pthread_cond_init(&run->moved, NULL);
    pthread_attr_init(&attributes);
    pthread_attr_setstacksize(&attributes, STACK);
    for (uint8_t k = 0; k < threads; k++)
        if (pthread_create(&thread[k].id, &attributes, serve, &thread[k]) != 0) {
            fprintf(stderr, "mzk run: no thread for worker %u\n", k);
            exit(FAILED);
        }
    for (uint8_t k = 0; k < threads; k++)
        pthread_join(thread[k].id, NULL);
    pthread_attr_destroy(&attributes);
    pthread_cond_destroy(&run->moved);
    pthread_mutex_destroy(&run->lock);
}

/* Each list of picks names every worker, so that one which makes no move finds the run finished. */
void run_rounds(struct run *run)
{
    struct crew *crew = &run->crew[0];
    uint8_t picks[LONG];
    uint32_t moves;
    for (size_t k = 0; k < sizeof picks; k++)
        picks[k] = k % run->workers;
    do {
        uint64_t word = mzk_prepared_rounds(PREPARED(&crew->job), AT(run, crew), picks, sizeof picks);
        accepted(&run->picks.list.text, word);
        moves = MZK_MOVES(word);
        add_progress(&run->progress, moves);
    } while (moves > 0);
}

void run_picks(struct run *run)
{
    add_progress(&run->progress, accepted(&run->picks.list.text, take(run, PICKED(&run->picks))));
}
