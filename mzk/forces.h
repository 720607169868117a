/* Forces as a result: the list, or its control number. */
#ifndef FORCES_H
#define FORCES_H

#include "nets.h"
#include "options.h"

/* The control number of so many forces. */
uint32_t control_of(const uint8_t *forces, uint32_t count);

/* Writes forces, one a line, to where the output goes, or their control number if that is asked for. */
void put_forces(const struct arguments *arguments, const uint8_t *forces, uint32_t count);

#endif
