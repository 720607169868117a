/* A plan's lanes: a worker each, with what it works, in plan order and in time. */
#ifndef LANES_H
#define LANES_H

#include "work.h"

/* The height of a strip of groups. */
enum { STRIP = 20 };

/* Draws the groups of a depth as a strip, with so many units of the page for a row. */
void draw_strip(FILE *out, const struct work *work, uint32_t depth, double unit, double y);

/* Draws which rows each worker works, in plan order, below the groups by depth, from a height down; where it ends. */
double draw_places(FILE *out, const struct plan *plan, const struct work *work, double y);

/* Draws when each worker works what, and what it waits for; where it ends. The ticks are those of `what`. */
double draw_times(FILE *out, const struct work *work, double y, const char *what);

/* The heights of both. */
double height_of_places(const struct work *work);
double height_of_times(const struct work *work);

#endif
