/* A matrix in the order of a plan, with the plan's groups around its diagonal. */
#ifndef ENTRIES_H
#define ENTRIES_H

#include "work.h"

/* Draws it from a height down; the height that it takes. */
void draw_entries(FILE *out, const struct plan *plan, const struct net *net, const struct work *work, double y);
double height_of_entries(void);

#endif
