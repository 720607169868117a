#include "refusals.h"

#include <stdlib.h>

enum { SHOWN = 60 };

/* What a refusal's place is: nothing, a line of the text, an index in a list file, whose lines are counted from 1, or
 * the length that a list needs. */
enum place { NOWHERE, LINE, INDEX, NEEDED };

/* A refusal in words: what was wanted in the line that it is of, else a sentence. */
struct refusal {
    enum place place;
    const char *words;
};

/* The refusals of the calls by their numbers. */
static const struct refusal of_calls[] = {
    [MZK_FIRST_LINE] = { LINE, "'%%MatrixMarket matrix coordinate integer symmetric'" },
    [MZK_FORM] = { LINE, "three whole numbers with spaces between: the size line, a line for each entry, and no more" },
    [MZK_SIZE] = { LINE, "as many columns as rows, 1 to 4096, and 0 to 32768 entries" },
    [MZK_ENTRY] = { LINE, "an entry on or below the diagonal, inside the rows, not given before, of at most 1000000000 "
                          "either side of 0" },
    [MZK_NO_MATRIX] = { NOWHERE, "the lists are no matrix: 1 to 4096 rows of ascending columns, each entry with its "
                                 "mirror, at most 32768 on and below the diagonal, of at most 1000000000 either side of "
                                 "0" },
    [MZK_MOVEMENTS] = { INDEX, "a movement of at most 1000000 either side of 0" },
    [MZK_PARAMETERS] = { NOWHERE, "workers are 1 to 16, closeness is 50 to 99, and distance 1 to 4" },
    [MZK_UNSOUND] = { NOWHERE, "the plan is not sound for this matrix" },
    [MZK_TOO_SHORT] = { NEEDED, "too short" },
    [MZK_NO_WORKER] = { INDEX, "a worker of the plan" },
    [MZK_NO_STATE] = { NOWHERE, "no run of this job: it has 192 bytes and 8 for each row, and no worker past its moves" },
    [MZK_DONE] = { INDEX, "a worker that has moves left" },
    [MZK_WAITS] = { INDEX, "a worker that does not wait for others" },
    [MZK_OVERFLOW] = { INDEX, "a worker whose next sum fits 64 bits, as all do in a run that began with zeros" },
    [MZK_UNFINISHED] = { NOWHERE, "the run is not finished: a worker has moves left" },
    [MZK_NO_FILE] = { NOWHERE, "no plan file, or a damaged or an older one" },
    [MZK_SURVEY] = { NOWHERE, "the matrix has no such row, or the survey error is above 1000000" },
    [MZK_NO_CREW] = { INDEX, "16 times the crew, 0 or 1, and a worker" },
    [MZK_ELSEWHERE] = { INDEX, "a worker that is not inside a row of the other crew" },
    [MZK_STALE] = { NOWHERE, "the forces are not those of the matrix and the movements" },
    [MZK_NO_ENTRY] = { NOWHERE, "the matrix has no such row, or no such entry is stored" },
    [MZK_BEYOND] = { NOWHERE, "a movement is at most 1000000, a value at most 1000000000 either side of 0" },
    [MZK_PLACES] = { NOWHERE, "a place repeats, or leaves a gap past the rows of the first matrix" },
    [MZK_LIMITS] = { NOWHERE, "the joined matrix has more than 4096 rows or 32768 entries, or a value above 1000000000 "
                              "either side of 0" },
    [MZK_NO_REGISTER] = { NOWHERE, "a barrier unit has the registers 0 to 5" },
    [MZK_UNPREPARED] = { NOWHERE, "no prepared job, or a damaged one" },
};

/* Those of list files that are others. */
static const struct refusal of_lists[] = {
    [MZK_FORM] = { LINE, "a whole number alone, such as -12, 0 or 345, and a line feed" },
    [MZK_ENTRY] = { LINE, "a whole number of 64 bits" },
};

enum { CALLS = sizeof of_calls / sizeof *of_calls, LISTS = sizeof of_lists / sizeof *of_lists };

const char *plural(uint32_t count)
{
    return count == 1 ? "" : "s";
}

void print_found(FILE *out, const void *bytes, size_t length)
{
    const uint8_t *at = bytes;
    fputc('\'', out);
    for (size_t i = 0; i < length && i < SHOWN; i++)
        fprintf(out, at[i] < ' ' || at[i] > '~' ? "\\x%02x" : "%c", at[i]);
    fprintf(out, "%s'", length > SHOWN ? ".." : "");
}

/* Prints what stands in a line of a text, and what was wanted there. */
static void print_line(FILE *out, const struct text *text, uint32_t number, const char *wanted)
{
    struct line line = line_of(text, number);
    fprintf(out, "%s:%u: found ", text->name, number);
    if (line.is_there)
        print_found(out, line.bytes, line.length);
    else
        fprintf(out, "the end of the file");
    fprintf(out, "%s, wanted %s", line.is_there && !line.is_ended ? " without a line feed" : "", wanted);
}

/* Prints a refusal of a text in the words for it. */
static void print_words(FILE *out, const struct text *text, uint64_t word, struct refusal refusal)
{
    uint32_t number = MZK_NUMBER(word), place = MZK_PLACE(word);
    if (number == MZK_FORM && place == 0)
        fprintf(out, "%s: longer than %d bytes", text->name, MZK_TEXT_BYTES);
    else if (refusal.place == LINE)
        print_line(out, text, place, refusal.words);
    else if (refusal.place == INDEX)
        print_line(out, text, place + 1, refusal.words);
    else
        fprintf(out, "%s: %s", text->name, refusal.words);
    if (refusal.place == NEEDED)
        fprintf(out, ", wanted %u at least", place);
    fprintf(out, " (refusal %u)\n", number);
}

void print_refusal(FILE *out, const struct text *text, uint64_t word)
{
    uint32_t number = MZK_NUMBER(word);
    struct refusal refusal = { NOWHERE, "a number that this program does not know" };
    print_words(out, text, word, number < CALLS && of_calls[number].words != NULL ? of_calls[number] : refusal);
}

uint32_t accepted(const struct text *text, uint64_t word)
{
    if (MZK_NUMBER(word) != MZK_ACCEPTED) {
        print_refusal(stderr, text, word);
        exit(REFUSED);
    }
    return MZK_COUNT(word);
}

uint32_t accepted_list(const struct text *text, uint64_t word)
{
    uint32_t number = MZK_NUMBER(word);
    if (number < LISTS && of_lists[number].words != NULL) {
        print_words(stderr, text, word, of_lists[number]);
        exit(REFUSED);
    }
    return accepted(text, word);
}

void refuse_count(const struct text *text, uint32_t found, const char *what, uint32_t wanted, uint32_t refusal)
{
    fprintf(stderr, "%s: found %u %s%s, wanted %u (refusal %u)\n", text->name, found, what, plural(found), wanted,
            refusal);
    exit(REFUSED);
}
