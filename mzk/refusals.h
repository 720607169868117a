/* How the program ends: its exit statuses, and a refusal as a sentence on standard error.
 *
 *     0  good
 *     1  two lists differ
 *     2  the input is refused, or the arguments are wrong
 *     3  a file or the output cannot be read or written, or a thread cannot be started */
#ifndef REFUSALS_H
#define REFUSALS_H

#include "files.h"
#include "mazhoketh.h"

enum { GOOD = 0, DIFFERENT = 1, REFUSED = 2, FAILED = 3 };

/* Prints the refusal in a word, of a text: `NAME:LINE: found 'LINE', wanted .. (refusal NUMBER)` where its place is a
 * line of the text, else `NAME: SENTENCE (refusal NUMBER)`. */
void print_refusal(FILE *out, const struct text *text, uint64_t word);

/* The count of an accepted call. A refusal, which concerns the text, ends the program; so also of a list file. */
uint32_t accepted(const struct text *text, uint64_t word);
uint32_t accepted_list(const struct text *text, uint64_t word);

/* Ends the program because a list file has not as many numbers as are wanted, as the call would have it. */
void refuse_count(const struct text *text, uint32_t found, const char *what, uint32_t wanted, uint32_t refusal);

/* The ending of a word for so many things. */
const char *plural(uint32_t count);

/* Prints bytes between quotation marks, the first 60 of them, others than ASCII's as `\xNN`. */
void print_found(FILE *out, const void *bytes, size_t length);

#endif
