#include "forces.h"

uint32_t control_of(const uint8_t *forces, uint32_t count)
{
    struct text text = { .name = "control" };
    return accepted(&text, mzk_control(forces, 8 * (size_t)count));
}

void put_forces(const struct arguments *arguments, const uint8_t *forces, uint32_t count)
{
    const char *path = output_of(arguments);
    if (!is_given(arguments, CONTROL)) {
        write_list(path, forces, count);
        return;
    }
    FILE *out = open_output(path);
    fprintf(out, "%u\n", control_of(forces, count));
    end_output(out, path);
}
