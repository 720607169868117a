/* A plan as a picture that a person on site can read. */

#include <stdlib.h>

#include "commands.h"
#include "entries.h"
#include "lanes.h"
#include "svg.h"

enum { TITLE = 110 };

/* Draws what the plan is and what it is worth, and says how red and blue are to be read. */
static void draw_title(FILE *out, const struct plan *plan, const struct work *work, const char *unit)
{
    fprintf(out, "<text class=\"title\" x=\"%d\" y=\"32\">", LEFT);
    put_name(out, plan->name);
    fprintf(out, ": %u row%s, %u worker%s, %u group%s, depth %u</text>\n", plan->n, plural(plan->n), work->workers,
            plural(work->workers), work->groups, plural(work->groups), work->depth);
    put_words(out, "", LEFT, 56, "Longest chain %u of %u %s; %.0f %% of the workers' time used if each makes one a "
              "tick unless it waits.", work->chain, work->updates, unit, used_share(work));
    put_box(out, "red", LEFT, 68, 14, 14, "");
    put_words(out, "", LEFT + 20, 80, "red: worked first in its group");
    put_box(out, "blue", LEFT + 220, 68, 14, 14, "");
    put_words(out, "", LEFT + 240, 80, "blue: waits until every red one of the same group is done");
    put_words(out, "", LEFT, 100, "The number in a group is its number in the listing; in the workers' lanes of the "
              "first part it is how many rows there are.");
}

/* Draws the picture of a plan; without a matrix, NULL, time is in rows. */
static void draw_plan(FILE *out, const struct plan *plan, const struct net *net)
{
    static struct work work;
    lay_work(&work, plan, net);
    double height = TITLE + height_of_places(&work) + height_of_times(&work);
    begin_page(out, height + (net != NULL ? height_of_entries() : 0));
    draw_title(out, plan, &work, net != NULL ? "updates" : "rows");
    double y = draw_places(out, plan, &work, TITLE);
    y = draw_times(out, &work, y, net != NULL ? "ticks, an update of each worker" : "ticks, a row of each worker");
    if (net != NULL)
        draw_entries(out, plan, net, &work, y);
    end_page(out);
}

int draw_command(const struct arguments *arguments)
{
    static struct net matrix;
    static struct plan plan;
    const char *path = output_of(arguments);
    const struct net *net = read_planned(&plan, arguments->operands[0], &matrix, arguments->values[MATRIX_FILE]);
    if (!is_shaped(&plan)) {
        fprintf(stderr, "%s: the plan is sound for no matrix (refusal %d)\n", plan.name, MZK_UNSOUND);
        exit(REFUSED);
    }
    FILE *out = open_output(path);
    draw_plan(out, &plan, net);
    end_output(out, path);
    return GOOD;
}
