/* Plans: made, listed, checked. */

#include "commands.h"
#include "work.h"

int plan_command(const struct arguments *arguments)
{
    static struct net net;
    static struct plan plan;
    uint32_t workers = number_of(arguments, WORKERS), p = number_of(arguments, CLOSENESS);
    uint32_t k = number_of(arguments, DISTANCE);
    char asked[80];
    refuse_terminal(arguments, "a plan file");
    read_matrix(&net, arguments->operands[0]);
    snprintf(asked, sizeof asked, "mzk plan: %u worker%s, closeness %u, distance %u", workers, plural(workers), p, k);
    struct text text = { .name = asked };
    plan.n = net.n;
    plan.count = accepted(&text, mzk_plan(MATRIX(&net), workers, p, k, plan.order, sizeof plan.order,
                                          plan.groups, sizeof plan.groups));
    write_plan(&plan, output_of(arguments));
    if (!is_given(arguments, QUIET))
        tell_plan(net.name, &plan, &net);
    return GOOD;
}

/* Prints a plan as netplan does: the order, then a line for each group. */
static void print_plan(FILE *out, const struct plan *plan)
{
    fprintf(out, "order");
    for (uint32_t position = 0; position < plan->n; position++)
        fprintf(out, " %u", row_at(plan, position));
    fprintf(out, "\ngroup start length first workers colour parent depth\n");
    for (uint32_t index = 0; index < plan->count; index++) {
        struct group group = group_of(plan, index);
        fprintf(out, "%u %u %u %u %u %u %u %u\n", index, group.start, group.length, group.first, group.workers,
                group.colour, group.parent, group.depth);
    }
}

/* A plan that is sound for no matrix is listed all the same: its reader looks for what is wrong. */
int list_command(const struct arguments *arguments)
{
    static struct net matrix;
    static struct plan plan;
    const char *path = output_of(arguments);
    const struct net *net = read_planned(&plan, arguments->operands[0], &matrix, arguments->values[MATRIX_FILE]);
    FILE *out = open_output(path);
    print_plan(out, &plan);
    end_output(out, path);
    if (is_given(arguments, QUIET))
        return GOOD;
    if (is_shaped(&plan))
        tell_plan(plan.name, &plan, net);
    else
        fprintf(stderr, "%s: %u row%s, %u group%s, sound for no matrix\n", plan.name, plan.n, plural(plan.n),
                plan.count, plural(plan.count));
    return GOOD;
}

int check_command(const struct arguments *arguments)
{
    static struct net net;
    static struct plan plan;
    uint32_t distance = number_of(arguments, DISTANCE);
    read_matrix(&net, arguments->operands[0]);
    read_plan(&plan, arguments->operands[1]);
    judge_plan(&plan, &net, distance);
    printf("%s: sound for %s at distance %u\n", plan.name, net.name, distance);
    end_output(stdout, "-");
    return GOOD;
}
