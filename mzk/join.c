/* Two nets sewn together: each shop models its half, and the whole is one matrix. */

#include "commands.h"
#include "nets.h"

int join_command(const struct arguments *arguments)
{
    static struct net first, second, joined;
    static uint8_t narrowed[4 * MZK_ROWS];
    struct list places;
    read_matrix(&first, arguments->operands[0]);
    read_matrix(&second, arguments->operands[1]);
    read_counted(&places, arguments->operands[2], second.n, "place", MZK_PLACES);
    narrow(narrowed, &places);
    uint64_t word = mzk_join(MATRIX(&first), MATRIX(&second), narrowed, 4 * (size_t)second.n,
                             joined.starts, sizeof joined.starts, joined.columns, sizeof joined.columns,
                             joined.values, sizeof joined.values);
    take_rows(&joined, accepted(&places.text, word));
    write_matrix(&joined, output_of(arguments));
    free_list(&places);
    return GOOD;
}
