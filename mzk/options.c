#include "options.h"

#include <stdarg.h>
#include <stdlib.h>
#include <string.h>

/* What becomes of the file that an option names. */
enum use { NO_FILE, IS_READ, IS_WRITTEN };

/* An option: its letter, 0 if it has none, its word, what it takes, NULL if nothing, and what it is for, in brackets if
 * it is not given. The limits of a number, and its default: narrower limits that a call has are judged there. */
static const struct known {
    char letter;
    const char *word, *takes, *is;
    int64_t least, most, otherwise;
    enum use use;
} known[OPTIONS] = {
#define FLAG(letter, word, is) { letter, word, NULL, is, 0, 0, 0, NO_FILE }
#define NAMED(letter, word, takes, use, is) { letter, word, takes, is, 0, 0, 0, use }
#define NUMBER(letter, word, takes, least, most, otherwise, is) \
    { letter, word, takes, is, least, most, otherwise, NO_FILE }
    [OUTPUT] = NAMED('o', "output", "FILE", IS_WRITTEN, "where the result goes (standard output)"),
    [WORKERS] = NUMBER('w', "workers", "N", 0, UINT32_MAX, MZK_WORKERS, "workers to plan for, 1 to 16 (16)"),
    [CLOSENESS] = NUMBER('p', "closeness", "P", 0, UINT32_MAX, 60, "nearness of loads to whole workers, 50 to 99 (60)"),
    [DISTANCE] = NUMBER('k', "distance", "K", 0, UINT32_MAX, 2, "joins between like colours, 1 to 4 (2, for runs)"),
    [MATRIX_FILE] = NAMED('m', "matrix", "MATRIX", IS_READ, "the matrix that the plan is for"),
    [ERROR] = NUMBER('t', "error", "T", 0, UINT32_MAX, 1, "survey error, 0 to 1000000 micrometres (1)"),
    [SHIFT] = NUMBER('s', "shift", "ROW", 0, UINT32_MAX, 0, "the shift for ROW in place of the amounts"),
    [THREADS] = NUMBER('j', "threads", "N", 1, MZK_WORKERS, MZK_WORKERS, "threads, 1 to 16 (one for each worker)"),
    [ROUNDS] = FLAG('r', "rounds", "workers in turn, passed over while they cannot move"),
    [PICKS_FILE] = NAMED(0, "picks", "PICKS", IS_READ, "the picks of a file in place of threads"),
    [CREWS] = NAMED(0, "crews", "MOVEMENTS", IS_READ, "a second crew's movements: two columns of forces"),
    [FRESH] = FLAG('f', "fresh", "begin with zeros, whatever the file has"),
    [PREVIEW] = FLAG('n', "preview", "look only: the file stays as it is"),
    [FINISHED] = FLAG(0, "forces", "the forces, once all moves are made, instead"),
    [CONTROL] = FLAG('c', "control", "the control number in place of the forces"),
    [NEW_MOVEMENTS] = NAMED(0, "new-movements", "FILE", IS_WRITTEN, "where the changed movements go (nowhere)"),
    [NEW_MATRIX] = NAMED(0, "new-matrix", "FILE", IS_WRITTEN, "where the changed matrix goes (nowhere)"),
    [QUIET] = FLAG('q', "quiet", "no summary, no progress"),
    [HELP] = FLAG('h', "help", "this help"),
};

void refuse_arguments(const char *command, const char *form, ...)
{
    va_list values;
    va_start(values, form);
    fprintf(stderr, "mzk %s: ", command);
    vfprintf(stderr, form, values);
    fprintf(stderr, "; see mzk help %s\n", command);
    va_end(values);
    exit(REFUSED);
}

bool is_given(const struct arguments *arguments, enum option option)
{
    return arguments->values[option] != NULL;
}

const char *output_of(const struct arguments *arguments)
{
    return is_given(arguments, OUTPUT) ? arguments->values[OUTPUT] : "-";
}

void refuse_terminal(const struct arguments *arguments, const char *what)
{
    if (is_standard(output_of(arguments)) && is_terminal(stdout))
        refuse_arguments(arguments->command, "%s is no text for a terminal: name a file with -o", what);
}

/* Ends the program because a stretch of an argument is no number from least to most. */
static void refuse_number(const char *where, const char *text, size_t length, int64_t least, int64_t most)
{
    fprintf(stderr, "%s: found ", where);
    print_found(stderr, text, length);
    fprintf(stderr, ", wanted a whole number of %lld to %lld\n", (long long)least, (long long)most);
    exit(REFUSED);
}

/* Spelled as in matrix texts: perhaps a minus sign, then 1 to 10 digits, no needless leading zero, no -0. */
int64_t whole_number(const char *where, const char *text, size_t length, int64_t least, int64_t most)
{
    size_t sign = length > 0 && text[0] == '-';
    size_t digits = length - sign;
    int64_t number = 0;
    if (digits < 1 || digits > 10 || (text[sign] == '0' && length > 1))
        refuse_number(where, text, length, least, most);
    for (size_t i = sign; i < length; i++) {
        if (text[i] < '0' || text[i] > '9')
            refuse_number(where, text, length, least, most);
        number = 10 * number + (text[i] - '0');
    }
    if (sign)
        number = -number;
    if (number < least || number > most)
        refuse_number(where, text, length, least, most);
    return number;
}

uint32_t number_of(const struct arguments *arguments, enum option option)
{
    const struct known *it = &known[option];
    const char *value = arguments->values[option];
    char where[64];
    if (value == NULL)
        return it->otherwise;
    snprintf(where, sizeof where, "mzk %s: --%s", arguments->command, it->word);
    return whole_number(where, value, strlen(value), it->least, it->most);
}

/* The option that a word names, by its letter or its word up to the length; OPTIONS if none of the set is. */
static enum option named(uint32_t options, const char *word, size_t length)
{
    for (enum option option = 0; option < OPTIONS; option++) {
        const struct known *it = &known[option];
        bool by_letter = length == 1 && it->letter != 0 && word[0] == it->letter;
        bool by_word = length > 1 && strlen(it->word) == length && memcmp(it->word, word, length) == 0;
        if (options >> option & 1 && (by_letter || by_word))
            return option;
    }
    return OPTIONS;
}

/* Takes the option of a word, `-o`, `-oVALUE`, `--output` or `--output=VALUE`, and the word after it if that is its
 * value; how many words were taken. */
static int take_option(struct arguments *arguments, const struct command *command, int count, char **words)
{
    bool is_long = words[0][1] == '-';
    const char *name = words[0] + (is_long ? 2 : 1);
    size_t length = is_long ? strcspn(name, "=") : 1;
    const char *rest = name + length;
    enum option option = named(command->options | TAKES(HELP), name, length);
    if (option == OPTIONS)
        refuse_arguments(command->name, "no option %s", words[0]);
    if (is_given(arguments, option))
        refuse_arguments(command->name, "--%s twice", known[option].word);
    if (known[option].takes == NULL) {
        if (*rest != '\0')
            refuse_arguments(command->name, "--%s takes nothing, found %s", known[option].word, words[0]);
        arguments->values[option] = "";
        return 1;
    }
    if (*rest == '\0' && count == 1)
        refuse_arguments(command->name, "--%s without its %s", known[option].word, known[option].takes);
    arguments->values[option] = *rest == '\0' ? words[1] : rest + is_long;
    return *rest == '\0' ? 2 : 1;
}

/* How many files of a use are standard input or output. */
static int standard_files(const struct arguments *arguments, enum use use)
{
    int files = use == IS_WRITTEN && !is_given(arguments, OUTPUT); /* where the result goes if nothing is said */
    for (int k = 0; k < arguments->count && use == IS_READ; k++)
        files += is_standard(arguments->operands[k]);
    for (enum option option = 0; option < OPTIONS; option++)
        files += known[option].use == use && is_given(arguments, option) && is_standard(arguments->values[option]);
    return files;
}

/* Ends the program where operands are too few or too many, numbers are none, or a standard file is named twice. */
static void judge(const struct arguments *arguments, const struct command *command)
{
    if (arguments->count < command->least || arguments->count > command->most)
        refuse_arguments(command->name, "found %d operand%s, wanted %s", arguments->count, plural(arguments->count),
                         command->operands);
    for (enum option option = 0; option < OPTIONS; option++)
        if (known[option].most > 0)
            number_of(arguments, option);
    if (standard_files(arguments, IS_READ) > 1)
        refuse_arguments(command->name, "standard input is named twice");
    if (standard_files(arguments, IS_WRITTEN) > 1)
        refuse_arguments(command->name, "standard output is named twice");
}

void take_arguments(struct arguments *arguments, const struct command *command, int count, char **words)
{
    bool is_ended = false;
    arguments->command = command->name;
    arguments->operands = words; /* they are gathered in front of the options */
    for (int at = 0; at < count;) {
        bool is_option = !is_ended && words[at][0] == '-' && words[at][1] != '\0';
        if (is_option && strcmp(words[at], "--") == 0) {
            is_ended = true;
            at++;
        } else if (is_option) {
            at += take_option(arguments, command, count - at, words + at);
        } else {
            arguments->operands[arguments->count++] = words[at++];
        }
    }
    if (!is_given(arguments, HELP))
        judge(arguments, command);
}

void print_options(FILE *out, uint32_t options)
{
    for (enum option option = 0; option < OPTIONS; option++) {
        const struct known *it = &known[option];
        char word[40];
        if (!(options >> option & 1))
            continue;
        snprintf(word, sizeof word, "--%s%s%s", it->word, it->takes != NULL ? " " : "",
                 it->takes != NULL ? it->takes : "");
        fprintf(out, it->letter != 0 ? "  -%c, %-20s %s\n" : "  %c   %-20s %s\n", it->letter != 0 ? it->letter : ' ',
                word, it->is);
    }
}
