/* Linked with mzk in place of mzk_prepared_forces: the first force is off by one, which the command has to notice. */

#include "mazhoketh.h"

#define TAKEN \
    const uint8_t *prepared, size_t prepared_bytes, const uint8_t *state, size_t state_bytes, \
    const uint8_t *sums, size_t sums_bytes, uint8_t *forces, size_t forces_bytes

uint64_t __real_mzk_prepared_forces(TAKEN);

uint64_t __wrap_mzk_prepared_forces(TAKEN)
{
    uint64_t word = __real_mzk_prepared_forces(prepared, prepared_bytes, state, state_bytes, sums, sums_bytes,
                                               forces, forces_bytes);
    forces[0] ^= 1;
    return word;
}
