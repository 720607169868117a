/* A job: matrix, movements and plan, prepared once for all calls on its runs. */
#ifndef JOBS_H
#define JOBS_H

#include "plans.h"

/* A prepared list, in the room that the largest has. */
struct job {
    size_t length;
    uint8_t bytes[MZK_PREPARED_BYTES];
};

/* The arguments that hand a prepared list to a call. */
#define PREPARED(job) (job)->bytes, (job)->length

/* Prepares a job. A plan or movements that are not fit for the matrix end the program. */
void prepare_job(struct job *job, const struct net *net, const struct plan *plan, const struct movements *movements);

#endif
