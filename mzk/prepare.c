/* A job filed for the operators of its runs. */

#include "commands.h"
#include "jobs.h"

int prepare_command(const struct arguments *arguments)
{
    static struct net net;
    static struct plan plan;
    static struct movements movements;
    static struct job job;
    refuse_terminal(arguments, "a prepared job");
    read_matrix(&net, arguments->operands[0]);
    read_plan(&plan, arguments->operands[1]);
    read_movements(&movements, &net, arguments->operands[2]);
    prepare_job(&job, &net, &plan, &movements);
    write_bytes(output_of(arguments), job.bytes, job.length);
    free_list(&movements.list);
    return GOOD;
}
