/* A model of the barrier unit, kept in a file, to try a driver on. */

#include <stdlib.h>
#include <string.h>

#include "commands.h"
#include "kept.h"

/* Whether an access writes, `ADDRESS=BYTE`; if not, it tells something. */
static bool is_write(const char *access)
{
    return strchr(access, '=') != NULL;
}

/* Makes an access to a register, `ADDRESS=BYTE` or `ADDRESS`; the call's word. */
static uint64_t access_register(struct text *unit, const char *access)
{
    size_t length = strcspn(access, "=");
    if (access[0] < '0' || access[0] > '9')
        refuse_arguments("barrier", "found '%s', wanted ADDRESS=BYTE, ADDRESS, line or releases", access);
    uint32_t address = whole_number(access, access, length, 0, UINT32_MAX);
    if (!is_write(access))
        return mzk_barrier_read(unit->bytes, unit->length, address);
    const char *rest = access + length + 1;
    uint8_t byte = whole_number(access, rest, strlen(rest), 0, UINT8_MAX);
    return mzk_barrier_write(unit->bytes, unit->length, address, byte);
}

/* Makes an access, which changes the unit or tells something; what it tells. */
static uint32_t make_access(struct text *unit, const char *access)
{
    struct text text = { .name = access };
    uint64_t word;
    if (strcmp(access, "line") == 0)
        word = mzk_barrier_line(unit->bytes, unit->length);
    else if (strcmp(access, "releases") == 0)
        word = mzk_barrier_releases(unit->bytes, unit->length);
    else
        word = access_register(unit, access);
    return accepted(MZK_NUMBER(word) == MZK_TOO_SHORT ? unit : &text, word);
}

/* Nothing is written or told unless all accesses are made. */
int barrier_command(const struct arguments *arguments)
{
    struct text unit;
    int count = arguments->count - 1;
    char **accesses = arguments->operands + 1;
    uint32_t *told = room(count * sizeof *told);
    bool is_changed = false;
    read_kept(&unit, arguments, arguments->operands[0], MZK_UNIT_BYTES);
    for (int k = 0; k < count; k++) {
        told[k] = make_access(&unit, accesses[k]);
        is_changed = is_changed || is_write(accesses[k]);
    }
    keep(&unit, arguments, is_changed);
    for (int k = 0; k < count; k++)
        if (!is_write(accesses[k]))
            printf("%u\n", told[k]);
    end_output(stdout, "-");
    free(told);
    free_text(&unit);
    return GOOD;
}
