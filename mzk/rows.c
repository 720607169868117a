/* A matrix file from full rows, as other programs keep a matrix: row starts, columns, values. */

#include <stdlib.h>

#include "commands.h"
#include "nets.h"

/* The arguments that hand a list to a call, once its numbers have 32 bits. */
#define NARROWED(list) (list)->numbers, 4 * (size_t)(list)->count

int rows_command(const struct arguments *arguments)
{
    struct list starts, columns, values;
    struct text text = { .name = "mzk rows", .bytes = room(MZK_WRITTEN_BYTES) };
    read_list(&starts, arguments->operands[0]);
    narrow(starts.numbers, &starts);
    uint32_t n = starts.count > 0 ? starts.count - 1 : 0;
    uint32_t entries = starts.count > 0 ? number_in(starts.numbers + 4 * (size_t)n, 4) : 0;
    read_counted(&columns, arguments->operands[1], entries, "column", MZK_NO_MATRIX);
    read_counted(&values, arguments->operands[2], entries, "value", MZK_NO_MATRIX);
    narrow(columns.numbers, &columns);
    narrow(values.numbers, &values);
    text.length = accepted(&text, mzk_write(n, NARROWED(&starts), NARROWED(&columns), NARROWED(&values),
                                            text.bytes, MZK_WRITTEN_BYTES));
    write_bytes(output_of(arguments), text.bytes, text.length);
    free_list(&starts);
    free_list(&columns);
    free_list(&values);
    free_text(&text);
    return GOOD;
}
