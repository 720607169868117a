/* A run that is kept in a file: picks are taken on it, or tried on a copy, and it is told who can move then. */

#include "commands.h"
#include "forces.h"
#include "kept.h"
#include "picks.h"

/* A prepared job and its rows; the file of a run of it: the state, then the sums; and picks. */
struct kept_run {
    struct text job, run;
    uint32_t rows;
    struct picks picks;
};

/* The arguments that hand a job and its run to a call. Of a run that is too short all is lent as state. */
#define JOB(job) (job)->bytes, (job)->length
#define RUN(run) (run)->bytes, state_length(run), (run)->bytes + state_length(run), (run)->length - state_length(run)

static size_t state_length(const struct text *run)
{
    return run->length < MZK_STATE_BYTES ? run->length : MZK_STATE_BYTES;
}

/* The rows of a job: the one number of sums that its calls take. */
static uint32_t rows_of(const struct text *job)
{
    static uint8_t zeros[MZK_STATE_BYTES + 8 * MZK_ROWS];
    struct text run = { .bytes = zeros, .length = MZK_STATE_BYTES };
    uint64_t word;
    uint32_t rows = 0;
    do {
        rows++;
        run.length += 8;
        word = mzk_prepared_ready(JOB(job), RUN(&run));
    } while (MZK_NUMBER(word) == MZK_NO_STATE && rows < MZK_ROWS);
    accepted(job, word);
    return rows;
}

/* Reads a job, its run, and the picks, if there are any. */
static void read_all(struct kept_run *kept, const struct arguments *arguments)
{
    read_text(&kept->job, arguments->operands[0], MZK_PREPARED_BYTES);
    kept->rows = rows_of(&kept->job);
    read_kept(&kept->run, arguments, arguments->operands[1], MZK_STATE_BYTES + 8 * (size_t)kept->rows);
    if (arguments->count > 2)
        read_picks(&kept->picks, arguments->operands[2]);
    else
        kept->picks.bytes = room(0);
}

/* Takes the picks, by rounds if it is asked for, and keeps the run unless it is a preview; the call's word. */
static uint64_t take(struct kept_run *kept, const struct arguments *arguments, uint32_t *moves)
{
    bool is_rounds = is_given(arguments, ROUNDS);
    uint64_t word = is_rounds ? mzk_prepared_rounds(JOB(&kept->job), RUN(&kept->run), PICKED(&kept->picks))
                              : mzk_prepared_picks(JOB(&kept->job), RUN(&kept->run), PICKED(&kept->picks));
    if (MZK_NUMBER(word) == MZK_NO_STATE)
        accepted(&kept->run, word);
    *moves = is_rounds ? MZK_MOVES(word) : MZK_COUNT(word); /* also of picks that were stopped */
    if (!is_given(arguments, PREVIEW))
        keep(&kept->run, arguments, *moves > 0);
    return word;
}

/* Says how many moves were made, and who can move now. */
static void tell(const struct kept_run *kept, const struct arguments *arguments, uint32_t moves)
{
    const char *path = output_of(arguments);
    uint32_t ready = accepted(&kept->run, mzk_prepared_ready(JOB(&kept->job), RUN(&kept->run)));
    FILE *out = open_output(path);
    fprintf(out, "moves %u\nready%s", moves, MZK_READY_COUNT(ready) == 0 ? " none" : "");
    for (uint32_t worker = 0; worker < MZK_WORKERS; worker++)
        if (MZK_READY_SET(ready) >> worker & 1)
            fprintf(out, " %u", worker);
    fprintf(out, "\n");
    end_output(out, path);
}

/* Writes the forces of the run, if it is finished. */
static void finish(const struct kept_run *kept, const struct arguments *arguments)
{
    static uint8_t forces[8 * MZK_ROWS];
    accepted(&kept->run, mzk_prepared_forces(JOB(&kept->job), RUN(&kept->run), forces, sizeof forces));
    put_forces(arguments, forces, kept->rows);
}

int pick_command(const struct arguments *arguments)
{
    static struct kept_run kept;
    uint32_t moves;
    read_all(&kept, arguments);
    uint64_t word = take(&kept, arguments, &moves);
    if (!is_given(arguments, FINISHED))
        tell(&kept, arguments, moves);
    accepted(&kept.picks.list.text, word);
    if (is_given(arguments, FINISHED))
        finish(&kept, arguments);
    free_text(&kept.job);
    free_text(&kept.run);
    free_picks(&kept.picks);
    return GOOD;
}
