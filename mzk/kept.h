/* A file that a command changes: a run's, or a barrier unit's. */
#ifndef KEPT_H
#define KEPT_H

#include "options.h"

/* Reads it whole; with --fresh it is so many zeros instead. */
void read_kept(struct text *text, const struct arguments *arguments, const char *path, size_t fresh);

/* Writes it anew if it has changed, or has just begun. */
void keep(const struct text *text, const struct arguments *arguments, bool is_changed);

#endif
