/* Linked with a program that was compiled with -finstrument-functions: whenever a function is entered, the thread may
 * stop for a while, so that threads meet in ways that they seldom do. */

#include <sched.h>
#include <stdint.h>
#include <time.h>

#define PLAIN __attribute__((no_instrument_function))

PLAIN void __cyg_profile_func_enter(void *function, void *caller);
PLAIN void __cyg_profile_func_exit(void *function, void *caller);

void __cyg_profile_func_enter(void *function, void *caller)
{
    static _Thread_local uint32_t dice;
    (void)function;
    (void)caller;
    if (dice == 0)
        dice = (uint32_t)(uintptr_t)&dice | 1; /* threads begin with different ones */
    dice ^= dice << 13;
    dice ^= dice >> 17;
    dice ^= dice << 5;
    if (dice % 32768 == 0)
        nanosleep(&(struct timespec){ .tv_nsec = 20000 }, NULL);
    else if (dice % 2048 == 0)
        sched_yield();
}

void __cyg_profile_func_exit(void *function, void *caller)
{
    (void)function;
    (void)caller;
}
