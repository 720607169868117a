/* Linked with mzk in place of mzk_prepared_picks: says at the end how often another worker moved than before, and how
 * often that came between a load and its store. The lock of the command guards the counts. */

#include <stdio.h>

#include "mazhoketh.h"

#define TAKEN \
    const uint8_t *prepared, size_t prepared_bytes, uint8_t *state, size_t state_bytes, \
    uint8_t *sums, size_t sums_bytes, const uint8_t *picks, size_t picks_bytes

uint64_t __real_mzk_prepared_picks(TAKEN);

static uint32_t made[MZK_WORKERS], last, changes, between;

uint64_t __wrap_mzk_prepared_picks(TAKEN)
{
    uint64_t word = __real_mzk_prepared_picks(prepared, prepared_bytes, state, state_bytes, sums, sums_bytes,
                                              picks, picks_bytes);
    if (MZK_COUNT(word) > 0 && picks[0] != last) {
        changes++;
        between += made[last] % 2;
        last = picks[0];
    }
    made[picks[0]] += MZK_COUNT(word);
    return word;
}

__attribute__((destructor)) static void tell(void)
{
    fprintf(stderr, "%u changes, %u between a load and its store\n", changes, between);
}
