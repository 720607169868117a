/* How far a survey error reaches. */

#include <stdlib.h>

#include "commands.h"
#include "nets.h"

/* Ends the program because no shift was written for the row that was asked for. */
static void refuse_shift(const struct movements *movements, uint32_t error)
{
    fprintf(stderr, "%s: a movement with %u added passes 1000000, so no shift is known to reach the amount\n",
            movements->list.text.name, error);
    exit(REFUSED);
}

int survey_command(const struct arguments *arguments)
{
    static struct net net;
    static struct movements movements;
    static uint8_t amounts[8 * MZK_ROWS], shift[4 * MZK_ROWS];
    bool shifted = is_given(arguments, SHIFT);
    uint32_t error = number_of(arguments, ERROR), row = number_of(arguments, SHIFT);
    char asked[60];
    snprintf(asked, sizeof asked, "mzk survey: error %u, row %u", error, row);
    read_matrix(&net, arguments->operands[0]);
    read_movements(&movements, &net, arguments->operands[1]);
    uint64_t word = mzk_survey(MATRIX(&net), MOVEMENTS(&movements), error, row,
                               amounts, sizeof amounts, shift, sizeof shift);
    struct text text = { .name = asked };
    uint32_t is_written = accepted(MZK_NUMBER(word) == MZK_SURVEY ? &text : &movements.list.text, word);
    if (shifted && !is_written)
        refuse_shift(&movements, error);
    if (shifted)
        write_narrow(output_of(arguments), shift, net.n);
    else
        write_list(output_of(arguments), amounts, net.n);
    free_list(&movements.list);
    return GOOD;
}
