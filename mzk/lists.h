/* List files, of movements, places or forces: one whole number a line. */
#ifndef LISTS_H
#define LISTS_H

#include "refusals.h"

/* A list file, and the numbers in it: 64 bits in two's complement, low byte first. */
struct list {
    struct text text;
    uint32_t count;
    uint8_t *numbers;
};

/* Reads a list file of any length up to 4 GiB. */
void read_list(struct list *list, const char *path);

/* Reads a list file that has to have so many numbers; what one is, and the refusal, are told where it has not. */
void read_counted(struct list *list, const char *path, uint32_t wanted, const char *what, uint32_t refusal);

/* Gives a list's room back. */
void free_list(struct list *list);

/* The text of so many numbers, one a line; its name is left open. */
struct text text_of(const uint8_t *numbers, uint32_t count);

/* Writes a list file of so many numbers. */
void write_list(const char *path, const uint8_t *numbers, uint32_t count);

/* Writes a list file of so many numbers of 32 bits in two's complement. */
void write_narrow(const char *path, const uint8_t *narrowed, uint32_t count);

/* Copies numbers into a list of 32 bits in two's complement, which may be the list's own room. A number past it becomes
 * the largest or the least there, which no call takes. */
void narrow(uint8_t *narrowed, const struct list *list);

/* The number in so many bytes, low byte first; and one of 32 bits put there. */
uint64_t number_in(const uint8_t *bytes, int width);
void put_number(uint8_t *bytes, uint32_t number);

#endif
