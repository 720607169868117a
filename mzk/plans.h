/* A plan as the byte lists of mazhoketh.h: made, read from its file, written, judged. */
#ifndef PLANS_H
#define PLANS_H

#include "nets.h"

struct plan {
    const char *name;
    uint32_t n, count;
    uint8_t order[4 * MZK_ROWS], groups[4 * MZK_GROUP_FIELDS * MZK_GROUPS_LIMIT];
};

/* A group's record. */
struct group {
    uint32_t start, length, first, workers, colour, parent, depth;
};

enum colour { WHOLE, RED, BLUE };

/* The distance that a run checks its plan at. */
enum { RUN_DISTANCE = 2 };

/* The arguments that hand a plan to a call, with just its lengths. */
#define PLAN(plan) (plan)->order, 4 * (size_t)(plan)->n, \
    (plan)->groups, 4 * MZK_GROUP_FIELDS * (size_t)(plan)->count, (plan)->count

/* Reads the plan of a file. It is not judged yet. */
void read_plan(struct plan *plan, const char *path);

/* Reads a plan, and the matrix that it is for if there is a path of one, NULL if not: the plan is then sound for it, at
 * distance 1 at least. The matrix, or NULL. */
const struct net *read_planned(struct plan *plan, const char *path, struct net *net, const char *matrix_path);

/* Writes the plan file. */
void write_plan(const struct plan *plan, const char *path);

/* Ends the program unless a plan is sound for a matrix at a distance. */
void judge_plan(const struct plan *plan, const struct net *net, uint32_t distance);

/* Whether a plan is sound for a matrix of its rows in which none are joined: what a plan alone can be asked. */
bool is_shaped(const struct plan *plan);

/* The row at a plan position; the position of each row of a sound plan; a group's record. */
uint32_t row_at(const struct plan *plan, uint32_t position);
void find_positions(uint32_t *positions, const struct plan *plan);
struct group group_of(const struct plan *plan, uint32_t index);

#endif
