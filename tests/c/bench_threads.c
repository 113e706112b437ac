/*
The little memory of examples/c on the bench. At the end the program prints how many threads have begun a transaction. By -DSLEEP= each
attempt first sleeps for so many milliseconds.
*/
#define _POSIX_C_SOURCE 200809L
#include "tmwatch_bench.h"
#undef TMWATCH_BENCH_MAIN
#define TMWATCH_BENCH_MAIN(memory)
#include "../../examples/c/norec.c"
#include <time.h>

#ifndef SLEEP
#define SLEEP 0
#endif

static atomic_uint threads;

static bool count_begin(void *unused, void *tx)
{
    static _Thread_local bool is_known;
    threads += !is_known;
    is_known = true;
    if (SLEEP > 0)
        nanosleep(&(struct timespec){0, SLEEP * 1000000}, NULL);
    return norec_begin(unused, tx);
}

int main(int count, char **words)
{
    tmwatch_memory counted = memory;
    counted.begin = count_begin;
    int status = tmwatch_bench_main(&counted, count, words);
    printf("%u threads\n", threads);
    return status;
}
