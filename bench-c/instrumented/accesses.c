/* A step at each access of a memory that is compiled with -fsanitize=thread and linked without that sanitizer, so that no pause is placed by hand.
   The compiler calls these functions in place of each atomic access, and before each plain one. For the C++20 memory model see orders.c.

   With store buffers as on x86 (Sewell, Sarkar, Owens, Zappa Nardelli and Myreen, CACM 2010), an atomic store that isn't sequentially consistent
   may remain in its thread's buffer for some steps. A thread's stores come out in order, and its reads see them. All are out before a
   read-modify-write, a sequentially consistent store or fence, a plain store that other threads may see, a yield, a wrapped call that may wait,
   and each recorded event. Loads aren't reordered. Nothing is buffered of a thread's own bytes, because unmarked stores to them, as at the end of
   a function, would overtake it; nor of a block that may be freed untracked. */
#include "step.h"
#include <string.h>

enum { SEQUENTIAL = __ATOMIC_SEQ_CST };

static void lock_buffer(tmwatch_step_how *how)
{
    while (atomic_exchange(&how->is_locked, true))
        ;
}

/* So many stores come out, the oldest first. The buffer is locked. */
static void put_out(tmwatch_step_how *how, unsigned count)
{
    struct tmwatch_delayed_store *all = how->buffer;
    for (unsigned i = 0; i < count; i++)
        all[i].put(all[i].to, all[i].value);
    memmove(all, all + count, (how->buffered - count) * sizeof all[0]);
    how->buffered -= count;
}

/* At one step in eight the oldest store comes out, and at a yield or a sleep all: before the step, because others run there. */
void tmwatch_step_drain_of(tmwatch_step_how *how, unsigned pauses)
{
    if (!how || how->buffered == 0)
        return;
    if (pauses > 0)
        how->draws = how->draws * UINT64_C(6364136223846793005) + UINT64_C(1442695040888963407);
    lock_buffer(how);
    put_out(how, pauses != 1 ? how->buffered : how->buffered > 0 && how->draws >> 61 == 0);
    how->is_locked = false;
}

void tmwatch_step_drain(void)
{
    tmwatch_step_drain_of(tmwatch_step_accesses(), 0);
}

static bool is_own(const tmwatch_step_how *how, const volatile void *at)
{
    uintptr_t it = (uintptr_t)at;
    return (it >= how->own[0] && it < how->own_end[0]) || (it >= how->own[1] && it < how->own_end[1]);
}

/* Where the program's own variables begin and end, as the linker says. They are never given back. */
extern char __data_start __attribute__((weak)), _end __attribute__((weak));

static bool is_lasting(const volatile void *at)
{
    uintptr_t it = (uintptr_t)at;
    return tmwatch_step_sees_free() || (it >= (uintptr_t)&__data_start && it < (uintptr_t)&_end);
}

/* Buffers a store of this order if it may be delayed: whether it is. Otherwise all that was stored before comes out. */
static bool is_buffered(struct tmwatch_delayed_store it, int order)
{
    tmwatch_step_how *how = tmwatch_step_accesses();
    const void *at = (const void *)it.to;
    if (!how)
        return false;
    lock_buffer(how);
    bool is_weak = *how->has_buffers && order != SEQUENTIAL && !is_own(how, at), is_delayed = is_weak && is_lasting(at);
    if (is_weak != is_delayed)
        how->is_undelayed = true;
    put_out(how, is_delayed ? how->buffered == TMWATCH_BUFFERED : how->buffered);
    if (is_delayed)
        how->buffer[how->buffered++] = it;
    how->is_locked = false;
    return is_delayed;
}

/* Whether the thread's newest store to these bytes is not out, and then its value. If another one overlaps them, all comes out. */
static bool is_forwarded(const volatile void *at, unsigned bytes, uint64_t *value)
{
    tmwatch_step_how *how = tmwatch_step_accesses();
    uintptr_t from = (uintptr_t)at;
    if (!how || how->buffered == 0)
        return false;
    lock_buffer(how);
    const struct tmwatch_delayed_store *end = how->buffer + how->buffered;
    while (end > how->buffer && (end[-1].to + end[-1].bytes <= from || from + bytes <= end[-1].to))
        end--;
    bool overlaps = end > how->buffer, is_same = overlaps && end[-1].to == from && end[-1].bytes == bytes;
    if (is_same)
        *value = end[-1].value;
    else if (overlaps)
        put_out(how, how->buffered);
    how->is_locked = false;
    return is_same;
}

/* A step, and the access that is made there in the program: its orders are null if it isn't simulated. */
TMWATCH_PART tmwatch_access step_to(const volatile void *at, unsigned bytes, int order)
{
    tmwatch_step_at(TMWATCH_CALLER, 1);
    return (tmwatch_access){tmwatch_step_orders(), tmwatch_thread(), TMWATCH_CALLER, at, bytes, order};
}

/* Before a plain access; what is stored isn't known. No race is looked for in a block if nothing shows when that is given back. */
TMWATCH_PART void before_plain(const void *at, size_t bytes, bool is_volatile, bool stores)
{
    uint64_t value;
    const tmwatch_step_how *how = tmwatch_step_accesses();
    bool is_seen = how && (is_volatile || !is_own(how, at));
    if (!how || (!is_seen && !stores))
        return;
    if (is_seen && (is_volatile || how->has_plain))
        tmwatch_step_at(TMWATCH_CALLER, 1);
    tmwatch_access access = {tmwatch_step_orders(), tmwatch_thread(), TMWATCH_CALLER, at, 0, 0};
    if (access.orders)
        tmwatch_orders_plain(&access, bytes, stores, is_seen && is_lasting(at));
    if (is_seen && (stores || is_forwarded(at, (unsigned)bytes, &value)))
        tmwatch_step_drain();
}

void __tsan_init(void) {}
void __tsan_func_entry(void *caller UNUSED) {}
void __tsan_func_exit(void) {}
void __tsan_vptr_update(void **at UNUSED, void *to UNUSED) {}
void __tsan_vptr_read(void **at UNUSED) {}
void __tsan_atomic_signal_fence(int order UNUSED) {} /* clang-format off */

#define PLAIN(infix, bytes, is_volatile)                                                              \
    void __tsan_##infix##read##bytes(const void *at) { before_plain(at, bytes, is_volatile, false); } \
    void __tsan_##infix##write##bytes(const void *at) { before_plain(at, bytes, is_volatile, true); } \
    void __tsan_##infix##read_write##bytes(const void *at) { before_plain(at, bytes, is_volatile, true); }
#define PLAINS(bytes)               \
    PLAIN(, bytes, false)           \
    PLAIN(unaligned_, bytes, false) \
    PLAIN(volatile_, bytes, true)   \
    PLAIN(unaligned_volatile_, bytes, true)
PLAINS(1) PLAINS(2) PLAINS(4) PLAINS(8) PLAINS(16)
void __tsan_read_range(const void *at, unsigned long bytes) { before_plain(at, bytes, false, false); }
void __tsan_write_range(const void *at, unsigned long bytes) { before_plain(at, bytes, false, true); } /* clang-format on */

#define COPY(name)                                                \
    void *__tsan_##name(void *to, const void *from, size_t bytes) \
    {                                                             \
        before_plain(from, bytes, false, false);                  \
        before_plain(to, bytes, false, true);                     \
        return name(to, from, bytes);                             \
    }
COPY(memcpy)
COPY(memmove)

void *__tsan_memset(void *to, int byte, size_t bytes)
{
    before_plain(to, bytes, false, true);
    return memset(to, byte, bytes);
}

/* All that was stored comes out before. What isn't simulated is sequentially consistent; what changes an older store leaves memory alone. */
#define CHANGE(bits, type, name, op)                                            \
    type __tsan_atomic##bits##_##name(volatile type *at, type value, int order) \
    {                                                                           \
        uint64_t held;                                                          \
        volatile type older, *to = at;                                          \
        tmwatch_access access = step_to(at, sizeof(type), order);               \
        tmwatch_step_drain();                                                   \
        if (access.orders && !tmwatch_orders_take(&access, &held)) {            \
            older = (type)held;                                                 \
            to = &older;                                                        \
        }                                                                       \
        type read = op(to, value, SEQUENTIAL);                                  \
        if (access.orders)                                                      \
            tmwatch_orders_change(&access, *to);                                \
        return read;                                                            \
    }
#define COMPARES(bits, type)                                                                                                          \
    TMWATCH_PART bool compare_##bits(volatile type *at, type *held, type value, int order, int failed, bool is_weak)                  \
    {                                                                                                                                 \
        uint64_t loaded = *held;                                                                                                      \
        tmwatch_access access = step_to(at, sizeof(type), order);                                                                     \
        tmwatch_step_drain();                                                                                                         \
        enum tmwatch_compared how = access.orders ? tmwatch_orders_compare(&access, &loaded, failed, is_weak) : TMWATCH_TAKES_NEWEST; \
        bool is_done = how != TMWATCH_FAILS;                                                                                          \
        if (how == TMWATCH_TAKES_NEWEST)                                                                                              \
            is_done = __atomic_compare_exchange_n(at, held, value, 0, SEQUENTIAL, SEQUENTIAL);                                        \
        else                                                                                                                          \
            *held = (type)loaded;                                                                                                     \
        if (access.orders && is_done)                                                                                                 \
            tmwatch_orders_change(&access, value);                                                                                    \
        return is_done;                                                                                                               \
    }                                                                                                                                 \
    type __tsan_atomic##bits##_compare_exchange_val(volatile type *at, type held, type value, int order, int failed)                  \
    {                                                                                                                                 \
        compare_##bits(at, &held, value, order, failed, false);                                                                       \
        return held;                                                                                                                  \
    }
#define COMPARE(bits, type, name, is_weak)                                                                              \
    int __tsan_atomic##bits##_compare_exchange_##name(volatile type *at, type *held, type value, int order, int failed) \
    {                                                                                                                   \
        return compare_##bits(at, held, value, order, failed, is_weak);                                                 \
    }
#define ATOMICS(bits, type)                                                                                      \
    static void put_##bits(uintptr_t to, uint64_t value)                                                         \
    {                                                                                                            \
        __atomic_store_n((type *)to, (type)value, SEQUENTIAL);                                                   \
    }                                                                                                            \
    type __tsan_atomic##bits##_load(const volatile type *at, int order)                                          \
    {                                                                                                            \
        uint64_t value;                                                                                          \
        tmwatch_access access = step_to(at, sizeof(type), order);                                                \
        if (access.orders)                                                                                       \
            return (type)tmwatch_orders_load(&access);                                                           \
        return is_forwarded(at, sizeof(type), &value) ? (type)value : __atomic_load_n(at, SEQUENTIAL);           \
    }                                                                                                            \
    void __tsan_atomic##bits##_store(volatile type *at, type value, int order)                                   \
    {                                                                                                            \
        tmwatch_access access = step_to(at, sizeof(type), order);                                                \
        if (access.orders && !tmwatch_orders_store(&access, value))                                              \
            return;                                                                                              \
        if (!is_buffered((struct tmwatch_delayed_store){put_##bits, (uintptr_t)at, value, sizeof(type)}, order)) \
            __atomic_store_n(at, value, SEQUENTIAL);                                                             \
    }                                                                                                            \
    CHANGE(bits, type, exchange, __atomic_exchange_n)                                                            \
    CHANGE(bits, type, fetch_add, __atomic_fetch_add)                                                            \
    CHANGE(bits, type, fetch_sub, __atomic_fetch_sub)                                                            \
    CHANGE(bits, type, fetch_and, __atomic_fetch_and)                                                            \
    CHANGE(bits, type, fetch_or, __atomic_fetch_or)                                                              \
    CHANGE(bits, type, fetch_xor, __atomic_fetch_xor)                                                            \
    CHANGE(bits, type, fetch_nand, __atomic_fetch_nand)                                                          \
    COMPARES(bits, type)                                                                                         \
    COMPARE(bits, type, strong, false)                                                                           \
    COMPARE(bits, type, weak, true)
ATOMICS(8, uint8_t)
ATOMICS(16, uint16_t)
ATOMICS(32, uint32_t)
ATOMICS(64, uint64_t)

/* All comes out at a sequentially consistent fence, and at no weaker one. */
void __tsan_atomic_thread_fence(int order)
{
    tmwatch_access access = step_to(NULL, 0, order);
    if (access.orders)
        tmwatch_orders_fence(&access);
    if (order == SEQUENTIAL)
        tmwatch_step_drain();
}
