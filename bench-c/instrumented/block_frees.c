/* Blocks of memory that are given back: what a thread has stored in one is out before, and the orders of C++20 forget it. A program calls
   these if it is linked with -Wl,--wrap= and the name. If it has functions of these names itself, they count. */
#define _GNU_SOURCE
#include "step.h"
#include <malloc.h>

void tmwatch_step_gives_back(const void *block, size_t size)
{
    tmwatch_simulation *orders = tmwatch_step_orders();
    if (tmwatch_step_drain)
        tmwatch_step_drain();
    if (orders)
        tmwatch_orders_forget(orders, block, size);
}

/* Where the program's own code and variables begin and end, as the linker says. */
extern char __executable_start, _end;

/* The size of a block of operator new: not known if the program has operators of its own. */
static size_t size_of(void *block, void (*delete)(void *))
{
    uintptr_t it = (uintptr_t) delete;
    bool is_own = it >= (uintptr_t)&__executable_start && it < (uintptr_t)&_end;
    return is_own ? 0 : malloc_usable_size(block);
}

#define GIVES(type, returns, name, given, size_given, ...) \
    __attribute__((weak)) type __real_##name(__VA_ARGS__); \
    __attribute__((weak)) type __wrap_##name(__VA_ARGS__)  \
    {                                                      \
        tmwatch_step_gives_back(block, size_given);        \
        returns __real_##name given;                       \
    }
/* As C++ names them, each operator delete has arguments more: a size, an alignment, or both. */
#define DELETES(name)                                                                          \
    GIVES(void, , name, (block), size_of(block, __real_##name), void *block)                   \
    GIVES(void, , name##m, (block, size), size, void *block, size_t size)                      \
    GIVES(void, , name##St11align_val_t, (block, alignment), 0, void *block, size_t alignment) \
    GIVES(void, , name##mSt11align_val_t, (block, size, alignment), size, void *block, size_t size, size_t alignment)
GIVES(void, , free, (block), malloc_usable_size(block), void *block)
GIVES(void *, return, realloc, (block, size), malloc_usable_size(block), void *block, size_t size)
GIVES(int, return, munmap, (block, size), size, void *block, size_t size)
DELETES(_ZdlPv)
DELETES(_ZdaPv)

bool tmwatch_step_sees_free(void)
{
    return __real_free;
}
