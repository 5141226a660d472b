/* How long a call takes: 100,000 of each of next, sent and receive, in microseconds of processor time.
   cc -O2 -Ihost/include host/time.c target/staticlib/libshore.a && ./a.out */
#define _POSIX_C_SOURCE 200809L
#include "plan.h"
#include <stdio.h>
#include <time.h>

static struct shore_block block;
static uint8_t store[10 * SHORE_CELL];
static uint8_t queue[SHORE_QUEUE];
static uint32_t out[SHORE_OUT];

static double now(void)
{
    struct timespec t;
    clock_gettime(CLOCK_PROCESS_CPUTIME_ID, &t);
    return (double)t.tv_sec + (double)t.tv_nsec / 1e9;
}

enum { CALLS = 100000 };

static void say(const char *what, double began) { printf("%s %.2f us\n", what, (now() - began) / CALLS * 1e6); }

int main(void)
{
    static const uint32_t idle[] = {8u << 28 | 62u << 21 | 4u << 17};
    block = shore_start(block, small_net(), store, sizeof store).block;
    double t = now();
    for (int i = 0; i < CALLS; i++)
        block = shore_next(block, i, queue, sizeof queue, out, SHORE_OUT).block;
    say("next", t);
    t = now();
    for (int i = 0; i < CALLS; i++)
        block = shore_sent(block, i).block;
    say("sent", t);
    t = now();
    for (int i = 0; i < CALLS; i++)
        block = shore_receive(block, idle, 1, 10, i, store, sizeof store, out, SHORE_OUT).block;
    say("receive", t);
    return 0;
}
