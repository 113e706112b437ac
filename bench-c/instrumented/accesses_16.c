/* Atomic accesses of 16 bytes: each is a step, and no store of them is buffered. */
#include "step.h"

#ifdef __x86_64__
__extension__ typedef unsigned __int128 wide;
#define WIDE(type, name, ...) __attribute__((target("cx16"))) type __tsan_atomic128_##name(__VA_ARGS__)

TMWATCH_PART void at_wide(const volatile wide *at)
{
    tmwatch_step_at(TMWATCH_CALLER, 1);
    tmwatch_simulation *orders = tmwatch_step_orders();
    if (orders)
        tmwatch_orders_wide(&(tmwatch_access){orders, tmwatch_thread(), TMWATCH_CALLER, at, sizeof *at, __ATOMIC_ACQ_REL});
    tmwatch_step_drain();
}

WIDE(wide, load, const volatile wide *at, int order UNUSED)
{
    at_wide(at);
    return __sync_val_compare_and_swap((volatile wide *)(uintptr_t)at, (wide)0, (wide)0); /* (nothing else loads so many bytes at once) */
}

WIDE(wide, compare_exchange_val, volatile wide *at, wide held, wide value, int order UNUSED, int failed UNUSED)
{
    at_wide(at);
    return __sync_val_compare_and_swap(at, held, value);
}

/* A read-modify-write, by compare-and-swap: what is stored, by what is there (`seen`). */
#define WIDE_CHANGE(name, stored)                                         \
    WIDE(wide, name, volatile wide *at, wide value, int order UNUSED)     \
    {                                                                     \
        wide seen, then = 0;                                              \
        at_wide(at);                                                      \
        do {                                                              \
            seen = then;                                                  \
            then = __sync_val_compare_and_swap(at, seen, (wide)(stored)); \
        } while (then != seen);                                           \
        return seen;                                                      \
    }
WIDE_CHANGE(exchange, value)
WIDE_CHANGE(fetch_add, seen + value)
WIDE_CHANGE(fetch_sub, seen - value)
WIDE_CHANGE(fetch_and, seen &value)
WIDE_CHANGE(fetch_or, seen | value)
WIDE_CHANGE(fetch_xor, seen ^ value)
WIDE_CHANGE(fetch_nand, ~(seen &value))

WIDE(void, store, volatile wide *at, wide value, int order)
{
    __tsan_atomic128_exchange(at, value, order);
}

#define WIDE_COMPARE(name)                                                                          \
    WIDE(int, name, volatile wide *at, wide *held, wide value, int order UNUSED, int failed UNUSED) \
    {                                                                                               \
        wide looked_for = *held;                                                                    \
        at_wide(at);                                                                                \
        *held = __sync_val_compare_and_swap(at, looked_for, value);                                 \
        return *held == looked_for;                                                                 \
    }
WIDE_COMPARE(compare_exchange_strong)
WIDE_COMPARE(compare_exchange_weak)
#endif
