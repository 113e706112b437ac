/*
Makes allocations fail at random, for tests/long/stops.sh, which loads it with a program (LD_PRELOAD): one in ONE_IN, chosen by SEED. A
program that Rattle builds allocates all of its memory with malloc and realloc of the C library.
*/
#include <errno.h>
#include <stdatomic.h>
#include <stdint.h>
#include <stdlib.h>

void *__libc_malloc(size_t size);
void *__libc_realloc(void *block, size_t size);

static uint64_t one_in, seed;
static atomic_ulong count;

__attribute__((constructor)) static void read_environment(void)
{
    const char *chance = getenv("ONE_IN"), *start = getenv("SEED");
    seed = start ? strtoul(start, NULL, 10) : 0;
    one_in = chance ? strtoul(chance, NULL, 10) : 0;
}

/* Whether the next growth is refused: its number, mixed with the seed (Steele, Lea and Flood, OOPSLA 2014). */
static int is_refused(void)
{
    uint64_t draw = seed + (atomic_fetch_add(&count, 1) + 1) * 0x9E3779B97F4A7C15;
    draw = (draw ^ draw >> 30) * 0xBF58476D1CE4E5B9;
    draw = (draw ^ draw >> 27) * 0x94D049BB133111EB;
    draw ^= draw >> 31;
    if (one_in == 0 || draw % one_in != 0)
        return 0;
    errno = ENOMEM;
    return 1;
}

void *malloc(size_t size)
{
    return is_refused() ? NULL : __libc_malloc(size);
}

void *realloc(void *block, size_t size)
{
    return is_refused() ? NULL : __libc_realloc(block, size);
}
