#include "jobs.h"

void prepare_job(struct job *job, const struct net *net, const struct plan *plan, const struct movements *movements)
{
    judge_plan(plan, net, RUN_DISTANCE);
    uint64_t word = mzk_prepare(MATRIX(net), MOVEMENTS(movements), PLAN(plan), job->bytes, sizeof job->bytes);
    job->length = accepted(&movements->list.text, word);
}
