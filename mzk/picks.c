#include "picks.h"

#include <stdlib.h>

void read_picks(struct picks *picks, const char *path)
{
    read_list(&picks->list, path);
    picks->bytes = room(picks->list.count);
    for (uint32_t k = 0; k < picks->list.count; k++) {
        uint64_t number = number_in(picks->list.numbers + 8 * (size_t)k, 8);
        picks->bytes[k] = number > UINT8_MAX ? UINT8_MAX : number;
    }
}

void free_picks(struct picks *picks)
{
    free_list(&picks->list);
    free(picks->bytes);
}
