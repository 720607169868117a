/* Files in and out: a text read whole, output that is known to be written. The path `-` is standard input or output. */
#ifndef FILES_H
#define FILES_H

#include <stdbool.h>
#include <stdint.h>
#include <stdio.h>

/* A file read whole, and the name that it is known by. */
struct text {
    const char *name;
    uint8_t *bytes;
    size_t length;
};

/* A line of a text, without its line feed; whether it has one, and whether the text has such a line at all. */
struct line {
    const uint8_t *bytes;
    size_t length;
    bool is_ended, is_there;
};

/* Whether a path is that of standard input or output. */
bool is_standard(const char *path);

/* Reads a file, but no more bytes than `most` and one, so that a longer one is told from it. */
void read_text(struct text *text, const char *path, size_t most);

/* Gives a text's bytes back. */
void free_text(struct text *text);

/* A line of a text, counted from 1. */
struct line line_of(const struct text *text, uint32_t number);

/* A file to be written, and its end, with which it takes the place of one that was there: it is never half written.
 * Output that is not all written ends the program. */
FILE *open_output(const char *path);
void end_output(FILE *file, const char *path);

/* Writes a file of so many bytes. */
void write_bytes(const char *path, const void *bytes, size_t length);

/* Room for so many bytes, all 0. */
void *room(size_t bytes);

/* Whether a file is a terminal. */
bool is_terminal(FILE *file);

#endif
