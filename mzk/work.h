/* How long a plan takes: its leaves as the workers run them, if everybody makes an update each tick unless it waits. */
#ifndef WORK_H
#define WORK_H

#include "plans.h"

enum { NO_LEAF = MZK_GROUPS_LIMIT };

/* A leaf: its group, its updates, and the ticks when its worker comes to it, begins it and ends it. The leaf that ends
 * last of those which must end before it, unless its worker comes to it later. */
struct leaf {
    uint32_t group, updates, reached, begin, end, after;
    bool is_known;
};

/* The groups of a plan, its leaves in plan order, all their updates, and those of the longest chain of leaves that
 * follow each other. Depth is the greatest of a group. */
struct work {
    uint32_t workers, depth, groups, leaves, updates, chain;
    struct group group[MZK_GROUPS_LIMIT];
    struct leaf leaf[MZK_GROUPS_LIMIT];
};

/* The work of a sound plan. Without a matrix, NULL, each row counts as one update. */
void lay_work(struct work *work, const struct plan *plan, const struct net *net);

/* Whether a leaf waits for another: this one lies in a red sibling of a blue group that it lies in, or is. */
bool waits_for(const struct work *work, uint32_t leaf, uint32_t other);

/* The share of the workers' time that is used, in per cent. */
double used_share(const struct work *work);

/* Says in a line what a plan is worth: on standard error, after its file's name. */
void tell_plan(const char *name, const struct plan *plan, const struct net *net);

#endif
