/* A matrix file and movements as the byte lists of mazhoketh.h. */
#ifndef NETS_H
#define NETS_H

#include "lists.h"

/* A matrix, in full rows. */
struct net {
    const char *name;
    uint32_t n, entries;
    uint8_t starts[4 * MZK_ROW_STARTS], columns[4 * MZK_ENTRIES], values[4 * MZK_ENTRIES];
};

/* The movements of a matrix's rows, and the list file that they stand in. */
struct movements {
    struct list list;
    uint8_t bytes[4 * MZK_ROWS];
};

/* The arguments that hand a matrix, its movements and a list of forces to a call, with just their lengths. */
#define MATRIX(net) (net)->n, (net)->starts, 4 * ((size_t)(net)->n + 1), \
    (net)->columns, 4 * (size_t)(net)->entries, (net)->values, 4 * (size_t)(net)->entries
#define MOVEMENTS(moved) (moved)->bytes, 4 * (size_t)(moved)->list.count
#define FORCES(net, forces) (forces), 8 * (size_t)(net)->n

/* Reads the matrix of a file. */
void read_matrix(struct net *net, const char *path);

/* Writes a matrix file. */
void write_matrix(const struct net *net, const char *path);

/* Sets the number of entries of a matrix of n rows that a call has written. */
void take_rows(struct net *net, uint32_t n);

/* Reads movements for a matrix: one whole number of micrometres a line, as many as it has rows. */
void read_movements(struct movements *movements, const struct net *net, const char *path);

/* The forces of a matrix and its movements on one core. */
void find_forces(uint8_t *forces, const struct net *net, const struct movements *movements);

/* Where a row begins in columns and values; a column there. */
uint32_t row_start(const struct net *net, uint32_t row);
uint32_t column_at(const struct net *net, uint32_t entry);

#endif
