#include "plans.h"

#include <stdlib.h>

void read_plan(struct plan *plan, const char *path)
{
    struct text text;
    read_text(&text, path, MZK_FILE_BYTES);
    uint64_t word = mzk_read_plan(text.bytes, text.length, plan->order, sizeof plan->order,
                                  plan->groups, sizeof plan->groups);
    accepted(&text, word);
    plan->name = text.name;
    plan->n = MZK_PLAN_ROWS(word);
    plan->count = MZK_PLAN_GROUPS(word);
    free_text(&text);
}

const struct net *read_planned(struct plan *plan, const char *path, struct net *net, const char *matrix_path)
{
    read_plan(plan, path);
    if (matrix_path == NULL)
        return NULL;
    read_matrix(net, matrix_path);
    judge_plan(plan, net, 1);
    return net;
}

void write_plan(const struct plan *plan, const char *path)
{
    static uint8_t bytes[MZK_FILE_BYTES];
    struct text text = { .name = path };
    write_bytes(path, bytes, accepted(&text, mzk_write_plan(plan->n, PLAN(plan), bytes, sizeof bytes)));
}

void judge_plan(const struct plan *plan, const struct net *net, uint32_t distance)
{
    char asked[40];
    snprintf(asked, sizeof asked, "mzk check: distance %u", distance);
    if (plan->n != net->n) { /* a longer order is no plan of the matrix, though a call would read its part */
        fprintf(stderr, "%s: found a plan of %u rows, wanted one of %u, as %s has (refusal %d)\n", plan->name, plan->n,
                net->n, net->name, MZK_UNSOUND);
        exit(REFUSED);
    }
    uint64_t word = mzk_check(MATRIX(net), PLAN(plan), distance);
    struct text text = { .name = MZK_NUMBER(word) == MZK_PARAMETERS ? asked : plan->name };
    accepted(&text, word);
}

bool is_shaped(const struct plan *plan)
{
    static struct net unjoined;
    unjoined.n = plan->n;
    return MZK_NUMBER(mzk_check(MATRIX(&unjoined), PLAN(plan), RUN_DISTANCE)) == MZK_ACCEPTED;
}

uint32_t row_at(const struct plan *plan, uint32_t position)
{
    return number_in(plan->order + 4 * (size_t)position, 4);
}

void find_positions(uint32_t *positions, const struct plan *plan)
{
    for (uint32_t position = 0; position < plan->n; position++)
        positions[row_at(plan, position)] = position;
}

struct group group_of(const struct plan *plan, uint32_t index)
{
    uint32_t fields[MZK_GROUP_FIELDS];
    for (size_t field = 0; field < MZK_GROUP_FIELDS; field++)
        fields[field] = number_in(plan->groups + 4 * (MZK_GROUP_FIELDS * (size_t)index + field), 4);
    return (struct group){ fields[0], fields[1], fields[2], fields[3], fields[4], fields[5], fields[6] };
}
