#include "workers.h"

#include <sched.h>
#include <stdbool.h>
#include <string.h>
#include <unistd.h>

/* Where things stand in a prepared list (crates/prepared/specs/Format.antt). */
enum {
    ROWS = 4, CREW = 8, UPDATES = 12, MOST = 16, FIRST = 80, HEAD = 144, UPDATE = 16, TARGET = 8, ROW = 12, GATE = 64
};

/* How often a thread that finds no gate open looks again at once, where there is a core for each thread and where not;
 * and how often it then lets others run before it sleeps. */
enum { SPINS = 5000, FEW_SPINS = 20, YIELDS = 4 };

/* A worker of a run as its thread knows it: its number, its next update, and its stretches from the next one on. What
 * the thread has seen of the moves of all workers is shared by its workers of the run. */
struct worker {
    struct course *course;
    uint32_t number, next, stretch, last_stretch, *seen;
};

/* A thread's workers, for all crews. */
struct server {
    struct worker own[2 * MZK_WORKERS];
    uint32_t left, seen[2][MZK_WORKERS];
};

/* The number of 32 bits at `bytes`, and numbers of 32 and 64 bits put there: compilers make one load or store of
 * each. */
static uint32_t number_at(const uint8_t *bytes)
{
    return bytes[0] | (uint32_t)bytes[1] << 8 | (uint32_t)bytes[2] << 16 | (uint32_t)bytes[3] << 24;
}

static void put(uint8_t *bytes, uint32_t number)
{
    bytes[0] = number;
    bytes[1] = number >> 8;
    bytes[2] = number >> 16;
    bytes[3] = number >> 24;
}

static void put_wide(uint8_t *bytes, uint64_t number)
{
    put(bytes, number);
    put(bytes + 4, number >> 32);
}

/* ---- one worker */

/* Whether all workers have shown the moves that a worker's next stretch asks for. What was seen once is not looked at
 * again, as moves grow. */
static bool is_open(const struct worker *worker, memory_order order)
{
    const struct course *course = worker->course;
    const uint32_t *gate = course->tables->stretches[worker->stretch].gate;
    for (uint32_t v = 0; v < course->tables->workers; v++) {
        if (worker->seen[v] >= gate[v])
            continue;
        worker->seen[v] = atomic_load_explicit(&course->shown[v].moves, order);
        if (worker->seen[v] < gate[v])
            return false;
    }
    return true;
}

static int64_t amount_of(const struct update *update, const int32_t *movements)
{
    return (int64_t)update->entry * movements[update->source];
}

/* Works a worker's next stretch, which is not empty. No amount and no sum passes 64 bits. The number held after it is
 * what the last load found. */
static void work(struct worker *worker)
{
    struct course *course = worker->course;
    uint32_t end = course->tables->stretches[worker->stretch++].end;
    const struct update *updates = course->tables->updates;
    const int32_t *movements = course->movements;
    int64_t *sums = course->sums;
    for (uint32_t k = worker->next; k < end; k++)
        sums[updates[k].target] += amount_of(&updates[k], movements);
    course->shown[worker->number].held = sums[updates[end - 1].target] - amount_of(&updates[end - 1], movements);
    worker->next = end;
}

/* Shows a worker's moves, and tells those that sleep. A thread that lies down counts itself first and looks at the
 * moves then; here the moves are shown first and sleepers looked for then: one of the two sees the other. */
static void show(const struct worker *worker)
{
    struct course *course = worker->course;
    uint32_t moves = 2 * (worker->next - course->tables->first[worker->number]);
    atomic_store_explicit(&course->shown[worker->number].moves, moves, memory_order_seq_cst);
    if (atomic_load_explicit(&course->bell->sleepers, memory_order_seq_cst) == 0)
        return;
    pthread_mutex_lock(&course->bell->lock);
    pthread_cond_broadcast(&course->bell->news);
    pthread_mutex_unlock(&course->bell->lock);
}

/* Works a worker's stretches as far as their gates are open; whether it got on. */
static bool advance(struct worker *worker)
{
    uint32_t begin = worker->stretch;
    while (worker->stretch < worker->last_stretch && is_open(worker, memory_order_acquire)) {
        work(worker);
        show(worker);
    }
    return worker->stretch > begin;
}

/* ---- one thread */

/* Serves each worker of a thread once, and lets go of those that are done; whether one got on. */
static bool serve_each(struct server *server)
{
    bool has_moved = false;
    for (uint32_t k = server->left; k-- > 0;) {
        has_moved = advance(&server->own[k]) || has_moved;
        if (server->own[k].stretch == server->own[k].last_stretch)
            server->own[k] = server->own[--server->left];
    }
    return has_moved;
}

/* Sleeps until there is news, unless one of the workers can get on now. */
static void lie_down(struct server *server, struct bell *bell)
{
    bool can_move = false;
    pthread_mutex_lock(&bell->lock);
    atomic_fetch_add_explicit(&bell->sleepers, 1, memory_order_seq_cst);
    for (uint32_t k = 0; k < server->left && !can_move; k++)
        can_move = is_open(&server->own[k], memory_order_seq_cst);
    if (!can_move)
        pthread_cond_wait(&bell->news, &bell->lock);
    atomic_fetch_sub_explicit(&bell->sleepers, 1, memory_order_seq_cst);
    pthread_mutex_unlock(&bell->lock);
}

/* Lets some time pass, more the longer it has been idle. */
static void idle(struct server *server, const struct course *course, uint32_t times)
{
    if (times >= course->spins + YIELDS)
        lie_down(server, course->bell);
    else if (times >= course->spins)
        sched_yield();
#if defined __x86_64__
    else
        __builtin_ia32_pause();
#endif
}

/* Takes on a thread's share of the workers of a run. */
static void take_on(struct server *server, struct course *course, uint32_t thread, uint32_t *seen)
{
    const struct tables *tables = course->tables;
    uint32_t past = (thread + 1) * tables->workers / course->threads;
    for (uint32_t v = thread * tables->workers / course->threads; v < past; v++)
        if (tables->first[v] < tables->first[v + 1])
            server->own[server->left++] = (struct worker){
                course, v, tables->first[v], tables->first_stretch[v], tables->first_stretch[v + 1], seen
            };
}

void serve_courses(struct course *courses, uint32_t crews, uint32_t thread)
{
    struct server server = { .left = 0 };
    for (uint32_t crew = 0; crew < crews; crew++)
        take_on(&server, &courses[crew], thread, server.seen[crew]);
    for (uint32_t times = 0; server.left > 0; times++)
        if (serve_each(&server))
            times = 0;
        else
            idle(&server, courses, times);
}

/* ---- tables and runs */

/* The update at `bytes`; its amount is an entry, so that the low half says it all. It takes the movement of its row; but
 * for the row's own sum, past the row's first update, that of the row whose sum the next update takes. */
static struct update update_in(const uint8_t *bytes, uint32_t row_before)
{
    uint32_t target = number_at(bytes + TARGET), row = number_at(bytes + ROW);
    bool is_other = row == row_before && target == row;
    uint32_t source = is_other ? number_at(bytes + UPDATE + TARGET) : row;
    return (struct update){ (int32_t)number_at(bytes), target, source };
}

/* Adds a stretch behind the gate at `gate` unless the last one of this worker has it. */
static uint32_t add_stretch(struct tables *tables, uint32_t first, uint32_t count, const uint8_t *gate)
{
    struct stretch added;
    for (uint32_t v = 0; v < MZK_WORKERS; v++)
        added.gate[v] = number_at(gate + 4 * v);
    if (count > first && memcmp(tables->stretches[count - 1].gate, added.gate, sizeof added.gate) == 0)
        return count;
    tables->stretches[count] = added;
    return count + 1;
}

void make_tables(struct tables *tables, const uint8_t *list)
{
    uint32_t updates = number_at(list + UPDATES), update = 0, stretches = 0;
    const uint8_t *gates = list + HEAD + (size_t)UPDATE * updates;
    tables->rows = number_at(list + ROWS);
    tables->workers = number_at(list + CREW);
    for (uint32_t v = 0; v < tables->workers; v++) {
        uint32_t end = update + number_at(list + MOST + 4 * v) / 2, row_before = MZK_ROWS;
        tables->first[v] = update;
        tables->first_stretch[v] = stretches;
        for (; update < end; update++) {
            const uint8_t *bytes = list + HEAD + (size_t)UPDATE * update;
            uint32_t row = number_at(bytes + ROW);
            tables->updates[update] = update_in(bytes, row_before);
            if (row != row_before)
                stretches = add_stretch(tables, tables->first_stretch[v], stretches, gates + (size_t)GATE * row);
            tables->stretches[stretches - 1].end = update + 1;
            row_before = row;
        }
    }
    tables->first[tables->workers] = update;
    tables->first_stretch[tables->workers] = stretches;
    for (uint32_t row = 0; row < tables->rows; row++)
        tables->places[row] = number_at(gates + (size_t)GATE * tables->rows + 4 * row);
}

void open_course(struct course *course, const struct tables *tables, uint32_t threads, struct bell *bell)
{
    course->tables = tables;
    course->bell = bell;
    course->threads = threads;
    course->spins = sysconf(_SC_NPROCESSORS_ONLN) >= (long)threads ? SPINS : FEW_SPINS;
}

void begin_course(struct course *course, const uint8_t *movements)
{
    for (uint32_t row = 0; row < course->tables->rows; row++)
        course->movements[course->tables->places[row]] = (int32_t)number_at(movements + 4 * row);
    memset(course->sums, 0, sizeof course->sums);
    for (uint32_t v = 0; v < MZK_WORKERS; v++) {
        atomic_store_explicit(&course->shown[v].moves, 0, memory_order_relaxed);
        course->shown[v].held = 0;
    }
}

void put_course(const struct course *course, uint8_t *state, uint8_t *sums)
{
    for (uint32_t v = 0; v < MZK_WORKERS; v++) {
        put(state + 4 * v, atomic_load_explicit(&course->shown[v].moves, memory_order_acquire));
        put_wide(state + 4 * MZK_WORKERS + 8 * v, course->shown[v].held);
    }
    for (uint32_t row = 0; row < course->tables->rows; row++)
        put_wide(sums + 8 * row, course->sums[row]);
}

void open_bell(struct bell *bell)
{
    atomic_init(&bell->sleepers, 0);
    pthread_mutex_init(&bell->lock, NULL);
    pthread_cond_init(&bell->news, NULL);
}

void close_bell(struct bell *bell)
{
    pthread_cond_destroy(&bell->news);
    pthread_mutex_destroy(&bell->lock);
}
