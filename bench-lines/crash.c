/* A crash of the store. At a random call all programs are killed, and a command kills the store, or its machine, and starts it again. That call was
   written and got no answer, like those of the other threads that wait, so nobody knows its effect. Then new programs are started, and one of a
   thread without a part in the round reads what is there. */
#include "lines.h"
#include <signal.h>
#include <sys/wait.h>
#include <unistd.h>

/* A crash comes after so many calls at least, and fewer than so many more. */
enum { LEAST_CALLS = 50, MORE_CALLS = 2000 };

atomic_bool has_crashed;
static atomic_int_least64_t calls_left;
static uint64_t draws;

/* The next of a sequence of numbers (Steele, Lea and Flood, OOPSLA 2014). */
static void draw_crash(void)
{
    uint64_t word = draws += 0x9E3779B97F4A7C15;
    word = (word ^ word >> 30) * 0xBF58476D1CE4E5B9;
    word = (word ^ word >> 27) * 0x94D049BB133111EB;
    calls_left = LEAST_CALLS + (int64_t)((word ^ word >> 31) % MORE_CALLS);
}

void begin_crashes(uint64_t seed)
{
    draws = seed;
    draw_crash();
}

bool crashes_now(void)
{
    return options.crash && !has_crashed && atomic_fetch_sub(&calls_left, 1) == 1;
}

/* After all threads have ended their part. */
static void restart(void *memory UNUSED)
{
    start_programs();
    has_crashed = false;
    draw_crash();
}

void crash(unsigned thread)
{
    has_crashed = true;
    tmwatch_bench_crash(restart);
    end_conversation();
    if (!run_command("the crash", options.crash))
        fail(thread, "the command of --crash failed");
}
