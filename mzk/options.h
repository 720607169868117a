/* The commands' arguments: operands, and options that mean the same in every command that takes them. */
#ifndef OPTIONS_H
#define OPTIONS_H

#include "refusals.h"

enum option {
    OUTPUT, WORKERS, CLOSENESS, DISTANCE, MATRIX_FILE, ERROR, SHIFT, THREADS, ROUNDS, PICKS_FILE, CREWS, FRESH, PREVIEW,
    FINISHED, CONTROL, NEW_MOVEMENTS, NEW_MATRIX, QUIET, HELP, OPTIONS
};

/* Options of a command, as a set of bits. */
#define TAKES(option) (1u << (option))

/* What a command was called with. An option that was not given has no value; one that takes none has an empty one. */
struct arguments {
    const char *command;
    char **operands;
    int count;
    const char *values[OPTIONS];
};

struct command {
    const char *name, *operands;
    int least, most;                    /* how many operands */
    uint32_t options;
    int (*run)(const struct arguments *arguments);  /* the exit status */
    const char *does, *more;
};

/* Sorts what follows the command's name into operands and options. What is wrong ends the program. */
void take_arguments(struct arguments *arguments, const struct command *command, int count, char **words);

/* Prints the options of a set, a line each. */
void print_options(FILE *out, uint32_t options);

/* Whether an option was given; the number that it has, or its default; where the output goes. */
bool is_given(const struct arguments *arguments, enum option option);
uint32_t number_of(const struct arguments *arguments, enum option option);
const char *output_of(const struct arguments *arguments);

/* The whole number that a stretch of an argument is, from least to most; any other ends the program. */
int64_t whole_number(const char *where, const char *text, size_t length, int64_t least, int64_t most);

/* Ends the program where the output, which is no text, would go to a terminal. */
void refuse_terminal(const struct arguments *arguments, const char *what);

/* Ends the program because the arguments are wrong, with a sentence in the form of printf. */
void refuse_arguments(const char *command, const char *form, ...);

#endif
