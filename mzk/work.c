#include "work.h"

/* The updates of a row: one for itself, two for each joined row later in plan order. */
static uint32_t updates_of(const struct net *net, const uint32_t *positions, uint32_t row)
{
    uint32_t updates = 1;
    for (uint32_t entry = row_start(net, row); entry < row_start(net, row + 1); entry++)
        updates += positions[column_at(net, entry)] > positions[row] ? 2 : 0;
    return updates;
}

/* The updates of a group's rows. */
static uint32_t updates_in(const struct plan *plan, const struct net *net, const uint32_t *positions,
                           struct group group)
{
    uint32_t updates = 0;
    for (uint32_t position = group.start; position < group.start + group.length; position++)
        updates += net == NULL ? 1 : updates_of(net, positions, row_at(plan, position));
    return updates;
}

/* Whether a group lies in a red child of a parent, or is one. */
static bool is_in_red(const struct work *work, uint32_t parent, uint32_t group)
{
    for (; group != 0; group = work->group[group].parent)
        if (work->group[group].parent == parent && work->group[group].colour == RED)
            return true;
    return false;
}

bool waits_for(const struct work *work, uint32_t leaf, uint32_t other)
{
    uint32_t red = work->leaf[other].group;
    for (uint32_t group = work->leaf[leaf].group; group != 0; group = work->group[group].parent)
        if (work->group[group].colour == BLUE && is_in_red(work, work->group[group].parent, red))
            return true;
    return false;
}

/* The worker of a leaf. */
static uint32_t worker_of(const struct work *work, uint32_t leaf)
{
    return work->group[work->leaf[leaf].group].first;
}

static uint32_t end_of(struct work *work, uint32_t index);

/* Lets a leaf begin no sooner than another has ended. */
static void wait_for(struct work *work, struct leaf *leaf, uint32_t other)
{
    uint32_t end = end_of(work, other);
    bool is_tie = end == leaf->begin && leaf->after == NO_LEAF && work->leaf[other].updates > 0;
    if (end > leaf->begin || (is_tie && worker_of(work, other) != work->group[leaf->group].first)) {
        leaf->begin = end;
        leaf->after = other;
    }
}

/* When a leaf ends. A leaf without updates is finished when its worker has done all before it. */
static uint32_t end_of(struct work *work, uint32_t index)
{
    struct leaf *leaf = &work->leaf[index];
    if (leaf->is_known)
        return leaf->end;
    for (uint32_t before = index; before-- > 0 && leaf->reached == 0;)
        if (worker_of(work, before) == worker_of(work, index))
            leaf->reached = end_of(work, before);
    leaf->begin = leaf->reached;
    for (uint32_t other = 0; other < work->leaves && leaf->updates > 0; other++)
        if (waits_for(work, index, other))
            wait_for(work, leaf, other);
    leaf->is_known = true;
    leaf->end = leaf->begin + leaf->updates;
    return leaf->end;
}

/* Takes a plan's groups, and its leaves with their updates. */
static void take_groups(struct work *work, const struct plan *plan, const struct net *net, const uint32_t *positions)
{
    *work = (struct work){ .groups = plan->count, .workers = group_of(plan, 0).workers };
    for (uint32_t index = 0; index < plan->count; index++) {
        struct group group = group_of(plan, index);
        work->group[index] = group;
        work->depth = group.depth > work->depth ? group.depth : work->depth;
        bool is_leaf = index + 1 == plan->count || group_of(plan, index + 1).depth <= group.depth;
        if (is_leaf)
            work->leaf[work->leaves++] = (struct leaf){ .group = index, .after = NO_LEAF,
                                                        .updates = updates_in(plan, net, positions, group) };
    }
}

void lay_work(struct work *work, const struct plan *plan, const struct net *net)
{
    static uint32_t positions[MZK_ROWS];
    find_positions(positions, plan);
    take_groups(work, plan, net, positions);
    for (uint32_t leaf = 0; leaf < work->leaves; leaf++) {
        uint32_t end = end_of(work, leaf);
        work->chain = end > work->chain ? end : work->chain;
        work->updates += work->leaf[leaf].updates;
    }
}

double used_share(const struct work *work)
{
    return 100.0 * work->updates / work->chain / work->workers;
}

void tell_plan(const char *name, const struct plan *plan, const struct net *net)
{
    static struct work work;
    lay_work(&work, plan, net);
    fprintf(stderr, "%s: %u row%s, %u worker%s, %u group%s, depth %u", name, plan->n, plural(plan->n), work.workers,
            plural(work.workers), work.groups, plural(work.groups), work.depth);
    if (net != NULL)
        fprintf(stderr, ", longest chain %u of %u update%s, %.0f %% of the workers' time used", work.chain,
                work.updates, plural(work.updates), used_share(&work));
    fprintf(stderr, "\n");
}
