/* A list file of picks: in each line a worker, or for two crews 16 times the crew and a worker. */
#ifndef PICKS_H
#define PICKS_H

#include "lists.h"

/* The list file, and its numbers as the bytes that calls take. */
struct picks {
    struct list list;
    uint8_t *bytes;
};

/* The arguments that hand picks to a call. */
#define PICKED(picks) (picks)->bytes, (size_t)(picks)->list.count

/* Reads a file of picks. A number that is no byte becomes 255, which no call takes. */
void read_picks(struct picks *picks, const char *path);

/* Gives the room of picks back. */
void free_picks(struct picks *picks);

#endif
