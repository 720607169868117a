/* Forces kept current: a movement or an entry gets another value. */

#include <string.h>

#include "commands.h"
#include "nets.h"

/* What changes are made to. */
struct kept {
    struct net net;
    struct movements movements;
    struct list forces;
};

/* The text that a refusal of a change is of. */
static const struct text *blamed(const struct kept *kept, const struct text *change, uint64_t word)
{
    uint32_t number = MZK_NUMBER(word);
    return number == MZK_MOVEMENTS ? &kept->movements.list.text : number == MZK_STALE ? &kept->forces.text : change;
}

/* Makes a change, `ROW=VALUE` of a movement or `ROW,COLUMN=VALUE` of an entry. */
static void make_change(struct kept *kept, const char *change)
{
    const char *equals = strchr(change, '='), *comma = strchr(change, ',');
    struct text text = { .name = change };
    if (equals == NULL || (comma != NULL && comma > equals))
        refuse_arguments("set", "found '%s', wanted ROW=VALUE or ROW,COLUMN=VALUE", change);
    const char *end = comma != NULL ? comma : equals;
    uint32_t row = whole_number(change, change, end - change, 0, UINT32_MAX);
    int32_t value = whole_number(change, equals + 1, strlen(equals + 1), INT32_MIN, INT32_MAX);
    uint64_t word;
    if (comma == NULL) {
        word = mzk_set_movement(MATRIX(&kept->net), MOVEMENTS(&kept->movements),
                                FORCES(&kept->net, kept->forces.numbers), row, value);
    } else {
        uint32_t column = whole_number(change, comma + 1, equals - comma - 1, 0, UINT32_MAX);
        word = mzk_set_entry(MATRIX(&kept->net), MOVEMENTS(&kept->movements),
                             FORCES(&kept->net, kept->forces.numbers), row, column, value);
    }
    accepted(blamed(kept, &text, word), word);
}

int set_command(const struct arguments *arguments)
{
    static struct kept kept;
    enum { CHANGES = 3 }; /* the operands before the changes */
    read_matrix(&kept.net, arguments->operands[0]);
    read_movements(&kept.movements, &kept.net, arguments->operands[1]);
    read_counted(&kept.forces, arguments->operands[2], kept.net.n, "force", MZK_STALE);
    for (int at = CHANGES; at < arguments->count; at++)
        make_change(&kept, arguments->operands[at]);
    if (is_given(arguments, NEW_MOVEMENTS))
        write_narrow(arguments->values[NEW_MOVEMENTS], kept.movements.bytes, kept.net.n);
    if (is_given(arguments, NEW_MATRIX))
        write_matrix(&kept.net, arguments->values[NEW_MATRIX]);
    write_list(output_of(arguments), kept.forces.numbers, kept.net.n);
    free_list(&kept.movements.list);
    free_list(&kept.forces);
    return GOOD;
}
