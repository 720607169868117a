/* A stage as a cabinet runs it: a carried plan, one shared list of sums, threads in any order. */

#include <string.h>

#include "commands.h"
#include "forces.h"
#include "threads.h"

/* All moves of a run: two a row, four a pair of joined rows, which is two entries. */
static uint32_t all_moves(const struct net *net)
{
    uint32_t moves = 2 * net->n;
    for (uint32_t row = 0; row < net->n; row++)
        for (uint32_t entry = row_start(net, row); entry < row_start(net, row + 1); entry++)
            moves += column_at(net, entry) == row ? 0 : 2;
    return moves;
}

/* Ends the program if options do not go together. */
static void judge_options(const struct arguments *arguments)
{
    if (is_given(arguments, ROUNDS) + is_given(arguments, THREADS) + is_given(arguments, PICKS_FILE) > 1)
        refuse_arguments("run", "only one of --threads, --rounds and --picks");
    if (is_given(arguments, ROUNDS) && is_given(arguments, CREWS))
        refuse_arguments("run", "--rounds serves one crew");
}

/* Reads a crew's movements, and prepares its job. */
static void add_crew(struct run *run, const char *path)
{
    struct crew *crew = &run->crew[run->crews++];
    read_movements(&crew->movements, &run->net, path);
    prepare_job(&crew->job, &run->net, &run->plan, &crew->movements);
    find_forces(crew->product, &run->net, &crew->movements);
}

/* Takes the forces of a finished run; whether they are those of one core. */
static bool take_forces(struct run *run, struct crew *crew)
{
    accepted(&run->picks.list.text,
             mzk_prepared_forces(PREPARED(&crew->job), AT(run, crew), FORCES(&run->net, crew->forces)));
    return memcmp(crew->forces, crew->product, 8 * (size_t)run->net.n) == 0;
}

/* Prints two lists beside each other, with a tab between. */
static void print_columns(FILE *out, const uint8_t *forces, const uint8_t *others, uint32_t n)
{
    struct text first = text_of(forces, n), second = text_of(others, n);
    const char *own = (char *)first.bytes, *other = (char *)second.bytes;
    for (uint32_t row = 0; row < n; row++) {
        size_t length = strcspn(own, "\n"), width = strcspn(other, "\n");
        fprintf(out, "%.*s\t%.*s\n", (int)length, own, (int)width, other);
        own += length + 1;
        other += width + 1;
    }
    free_text(&first);
    free_text(&second);
}

/* Writes the forces of both crews, or their control numbers. */
static void put_both(const struct arguments *arguments, const struct run *run)
{
    const char *path = output_of(arguments);
    const uint8_t *forces = run->crew[0].forces, *others = run->crew[1].forces;
    FILE *out = open_output(path);
    if (is_given(arguments, CONTROL))
        fprintf(out, "%u\t%u\n", control_of(forces, run->net.n), control_of(others, run->net.n));
    else
        print_columns(out, forces, others, run->net.n);
    end_output(out, path);
}

/* Reads all that is run, and judges it. */
static void prepare(struct run *run, const struct arguments *arguments)
{
    judge_options(arguments);
    read_matrix(&run->net, arguments->operands[0]);
    read_plan(&run->plan, arguments->operands[1]);
    add_crew(run, arguments->operands[2]);
    if (is_given(arguments, CREWS))
        add_crew(run, arguments->values[CREWS]);
    run->workers = group_of(&run->plan, 0).workers;
    run->picks.list.text.name = run->net.name;
    if (is_given(arguments, PICKS_FILE))
        read_picks(&run->picks, arguments->values[PICKS_FILE]);
}

/* How many threads serve the workers. */
static uint8_t threads_of(const struct run *run, const struct arguments *arguments)
{
    uint8_t threads = number_of(arguments, THREADS);
    return threads < run->workers ? threads : run->workers;
}

/* Makes all moves. Given picks are taken at once, without a bar. */
static void make_moves(struct run *run, const struct arguments *arguments)
{
    bool is_given_picks = is_given(arguments, PICKS_FILE);
    begin_progress(&run->progress, run->crews * all_moves(&run->net), is_given(arguments, QUIET) || is_given_picks);
    if (is_given_picks)
        run_picks(run);
    else if (is_given(arguments, ROUNDS))
        run_rounds(run);
    else
        run_threads(run, threads_of(run, arguments));
    end_progress(&run->progress);
}

/* Says how a run went. */
static void tell_run(const struct run *run, const struct arguments *arguments, bool is_same)
{
    uint8_t threads = threads_of(run, arguments);
    fprintf(stderr, "%s: %u moves of %u worker%s ", run->net.name, run->progress.done, run->workers,
            plural(run->workers));
    if (is_given(arguments, PICKS_FILE))
        fprintf(stderr, "by the picks of %s", run->picks.list.text.name);
    else if (is_given(arguments, ROUNDS))
        fprintf(stderr, "in rounds");
    else
        fprintf(stderr, "by %u thread%s", threads, plural(threads));
    fprintf(stderr, is_same ? ", forces as on one core\n" : ", forces NOT as on one core: none are printed\n");
}

int run_command(const struct arguments *arguments)
{
    static struct run run;
    prepare(&run, arguments);
    make_moves(&run, arguments);
    bool is_same = true;
    for (int crew = 0; crew < run.crews; crew++) {
        is_same = take_forces(&run, &run.crew[crew]) && is_same;
        free_list(&run.crew[crew].movements.list);
    }
    if (!is_same || !is_given(arguments, QUIET))
        tell_run(&run, arguments, is_same);
    free_picks(&run.picks);
    if (!is_same)
        return DIFFERENT;
    if (run.crews == 2)
        put_both(arguments, &run);
    else
        put_forces(arguments, run.crew[0].forces, run.net.n);
    return GOOD;
}
