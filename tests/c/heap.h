/* A heap that counts what is taken of it and refuses what it is told to. Linked with --wrap=malloc, and so for calloc, realloc and free. */
#ifndef HEAP_H
#define HEAP_H

#include <malloc.h>
#include <stdbool.h>
#include <stddef.h>

void *__real_malloc(size_t size);
void *__real_calloc(size_t count, size_t size);
void *__real_realloc(void *block, size_t size);
void __real_free(void *block);

/* How many blocks and bytes are taken now, the most bytes so far, and how many calls for memory there were. */
static long blocks, bytes, peak;
static unsigned long calls;
/* The number of the call that is refused, counted from 1, if any, and whether each that follows is refused too. */
static unsigned long refused;
static bool refuses_all;

static bool is_refused_now(void)
{
    calls++;
    return refused != 0 && (refuses_all ? calls >= refused : calls == refused);
}

static void *count_block(void *block, int added)
{
    if (block) {
        blocks += added;
        bytes += added * (long)malloc_usable_size(block);
        if (bytes > peak)
            peak = bytes;
    }
    return block;
}

void *__wrap_malloc(size_t size)
{
    return is_refused_now() ? NULL : count_block(__real_malloc(size), 1);
}

void *__wrap_calloc(size_t count, size_t size)
{
    return is_refused_now() ? NULL : count_block(__real_calloc(count, size), 1);
}

void *__wrap_realloc(void *block, size_t size)
{
    if (is_refused_now())
        return NULL;
    count_block(block, -1);
    return count_block(__real_realloc(block, size), 1);
}

void __wrap_free(void *block)
{
    count_block(block, -1);
    __real_free(block);
}

#endif
