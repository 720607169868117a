/* Forces on one core. */

#include "commands.h"
#include "forces.h"

int force_command(const struct arguments *arguments)
{
    static struct net net;
    static struct movements movements;
    static uint8_t forces[8 * MZK_ROWS];
    read_matrix(&net, arguments->operands[0]);
    read_movements(&movements, &net, arguments->operands[1]);
    find_forces(forces, &net, &movements);
    put_forces(arguments, forces, net.n);
    free_list(&movements.list);
    return GOOD;
}
