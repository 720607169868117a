/* How far long work has come: a bar in a line of its own, where standard error is a terminal. */
#ifndef PROGRESS_H
#define PROGRESS_H

#include <stdbool.h>
#include <stdint.h>

struct progress {
    uint32_t done, total, told;  /* told: what the bar shows, in per cent */
    bool is_shown;
};

/* Begins work of so many moves, shown unless it is to be quiet. */
void begin_progress(struct progress *progress, uint32_t total, bool is_quiet);

/* So many moves more are done. */
void add_progress(struct progress *progress, uint32_t moves);

/* Takes the bar away. */
void end_progress(struct progress *progress);

#endif
