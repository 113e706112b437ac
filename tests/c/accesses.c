/*
Each atomic access of each size, in a program that is compiled with -fsanitize=thread and linked with libtmwatch_steps.a: it has to do
what it does without. Plain and volatile accesses, memory functions and fences, too. By -DSTEPS, without the bench and linked with
-Wl,--wrap=tmwatch_orders_wide,--wrap=tmwatch_orders_plain, each atomic one has to be one step of one pause, and each of 16 bytes simulated as a
whole; plain ones are shown to the model as they are.
*/
#include "check.h"
#include <stdbool.h>
#include <stdint.h>

#define CHECK_ALL(type)                                                                          \
    do {                                                                                         \
        static type at, other;                                                                   \
        type held = 5, got;                                                                      \
        for (int i = 0; i < 2; i++) {                                                            \
            __atomic_store_n(&at, (type)i, __ATOMIC_RELEASE);                                    \
            CHECK(__atomic_load_n(&at, __ATOMIC_ACQUIRE) == (type)i);                            \
            CHECK(__atomic_load_n(&at, __ATOMIC_ACQUIRE) == (type)i);                            \
        }                                                                                        \
        __atomic_store_n(&at, (type)9, __ATOMIC_RELEASE);                                        \
        CHECK(__atomic_load_n(&at, __ATOMIC_ACQUIRE) == 9);                                      \
        __atomic_store_n(&at, (type)7, __ATOMIC_SEQ_CST);                                        \
        CHECK(__atomic_exchange_n(&at, (type)6, __ATOMIC_ACQ_REL) == 7);                         \
        CHECK(__atomic_fetch_add(&at, (type)5, __ATOMIC_RELAXED) == 6);                          \
        CHECK(__atomic_fetch_sub(&at, (type)1, __ATOMIC_RELAXED) == 11);                         \
        CHECK(__atomic_fetch_and(&at, (type)6, __ATOMIC_RELAXED) == 10);                         \
        CHECK(__atomic_fetch_or(&at, (type)5, __ATOMIC_RELAXED) == 2);                           \
        CHECK(__atomic_fetch_xor(&at, (type)2, __ATOMIC_RELAXED) == 7);                          \
        CHECK(__atomic_fetch_nand(&at, (type)4, __ATOMIC_RELAXED) == 5);                         \
        CHECK(__atomic_load_n(&at, __ATOMIC_RELAXED) == (type)~(type)4);                         \
        __atomic_store_n(&at, (type)3, __ATOMIC_RELAXED);                                        \
        CHECK(!__atomic_compare_exchange_n(&at, &held, (type)4, false, __ATOMIC_SEQ_CST, __ATOMIC_RELAXED) && held == 3); \
        CHECK(__atomic_compare_exchange_n(&at, &held, (type)4, false, __ATOMIC_SEQ_CST, __ATOMIC_RELAXED) && at == 4);    \
        CHECK(!__sync_bool_compare_and_swap(&at, (type)3, (type)8) && __sync_val_compare_and_swap(&at, (type)4, (type)8) == 4); \
        got = (type)(at + 1);                                                                    \
        other = got;                                                                             \
        CHECK(*(volatile type *)&other == 9);                                                    \
    } while (0)

#ifdef STEPS
#include "../../bench-c/instrumented/step.h"
#define UNMARKED __attribute__((no_sanitize("thread")))
#ifdef __clang__ /* (which makes one of two) */
enum { FENCES = 2 };
#else
enum { FENCES = 3 };
#endif
enum { ALL = 22, THREAD = 5 };
static tmwatch_simulation *orders;
static atomic_bool has_buffers;
static tmwatch_step_how how = {.has_buffers = &has_buffers};
static volatile unsigned steps, wides; /* (the compiler marks accesses after it has looked who changes what) */

UNMARKED tmwatch_simulation *tmwatch_step_orders(void)
{
    return orders;
}

UNMARKED tmwatch_step_how *tmwatch_step_accesses(void)
{
    return &how;
}

UNMARKED unsigned tmwatch_thread(void)
{
    return THREAD;
}

UNMARKED void tmwatch_step_at(const void *caller, unsigned pauses)
{
    CHECK(caller && pauses == 1);
    steps++;
}

UNMARKED void __wrap_tmwatch_orders_wide(const tmwatch_access *it)
{
    CHECK(it->orders == orders && it->thread == THREAD && it->caller && it->bytes == 16 && it->order == __ATOMIC_ACQ_REL);
    wides++;
}

/* The last two plain accesses. */
static volatile struct {
    const volatile void *at;
    size_t bytes;
    bool stores, is_lasting;
} plain[2];

UNMARKED void __wrap_tmwatch_orders_plain(const tmwatch_access *it, size_t bytes, bool stores, bool is_lasting)
{
    CHECK(it->orders == orders && it->thread == THREAD && it->caller);
    plain[0] = plain[1];
    plain[1].at = it->at, plain[1].bytes = bytes, plain[1].stores = stores, plain[1].is_lasting = is_lasting;
}

UNMARKED static bool was_plain(unsigned place, const volatile void *at, size_t bytes, bool stores)
{
    return plain[place].at == at && plain[place].bytes == bytes && plain[place].stores == stores && plain[place].is_lasting;
}

/* How many steps there were since the last time. */
UNMARKED static unsigned made(void)
{
    unsigned before = steps;
    steps = 0;
    return before;
}
#define CHECK_STEPS(most) CHECK(made() == (most))
#define CHECK_WIDES(most) CHECK(wides == (most))

void *__tsan_memset(void *to, int byte, size_t bytes);
void *__tsan_memcpy(void *to, const void *from, size_t bytes);
void *__tsan_memmove(void *to, const void *from, size_t bytes);
void __tsan_read_range(const void *at, unsigned long bytes);
void __tsan_write_range(const void *at, unsigned long bytes);

__attribute__((noinline)) static void put(uint64_t *to)
{
    *to = 1;
    __asm__ volatile("" ::"r"(to) : "memory");
}

__attribute__((noinline)) static uint64_t get(const uint64_t *from)
{
    __asm__ volatile("" ::"r"(from) : "memory");
    return *from;
}

/* With plain steps, a plain access is one, but of the thread's own bytes. */
UNMARKED static void check_plain(void)
{
    static uint64_t all[4];
    put(&all[1]);
    CHECK_STEPS(0);
    how.has_plain = true;
    for (int part = 0; part < 2; part++) {
        how.own[part] = (uintptr_t)&all[1];
        how.own_end[part] = (uintptr_t)&all[3];
        for (unsigned i = 0; i < 4; i++) {
            put(&all[i]);
            CHECK_STEPS(i == 0 || i == 3);
        }
        how.own[part] = how.own_end[part] = 0;
    }
    how.has_plain = false;
}

UNMARKED static void simulate(void)
{
    static const atomic_uint_least64_t recorded;
    orders = tmwatch_orders_new(1, &recorded, NULL);
    CHECK(orders);
}

/* The model is shown each: which bytes, and whether it stores. */
UNMARKED static void check_shown(void)
{
    static uint64_t all[4];
    simulate();
    put(&all[1]);
    CHECK(was_plain(1, &all[1], sizeof all[1], true));
    CHECK(get(&all[1]) == 1 && was_plain(1, &all[1], sizeof all[1], false));
    __tsan_memset(all, 7, sizeof all);
    CHECK(all[3] != 0 && was_plain(1, all, sizeof all, true));
    __tsan_memcpy(all, all + 2, sizeof all[0]);
    CHECK(was_plain(0, all + 2, sizeof all[0], false) && was_plain(1, all, sizeof all[0], true));
    __tsan_memmove(all + 1, all, 2 * sizeof all[0]);
    CHECK(was_plain(0, all, 2 * sizeof all[0], false) && was_plain(1, all + 1, 2 * sizeof all[0], true));
    __tsan_read_range(all, 5);
    CHECK(was_plain(1, all, 5, false));
    __tsan_write_range(all, 6);
    CHECK(was_plain(1, all, 6, true));
}
#else
#define CHECK_STEPS(most) (void)0
#define check_plain() (void)0
#define check_shown() (void)0
#define simulate() (void)0
#define CHECK_WIDES(most) (void)0
#endif

static void check_fences(void)
{
    static char from[100], to[100];
    __atomic_thread_fence(__ATOMIC_SEQ_CST);
    __atomic_thread_fence(__ATOMIC_ACQUIRE);
    __atomic_signal_fence(__ATOMIC_SEQ_CST);
    __sync_synchronize();
    memset(from, 3, sizeof from);
    memcpy(to, from, sizeof to);
    memmove(to + 1, to, sizeof to - 1);
    CHECK(to[0] == 3 && to[99] == 3);
}

int main(void)
{
    CHECK_ALL(uint8_t);
    CHECK_STEPS(ALL);
    CHECK_ALL(uint16_t);
    CHECK_STEPS(ALL);
    CHECK_ALL(uint32_t);
    CHECK_STEPS(ALL);
    CHECK_ALL(uint64_t);
    CHECK_STEPS(ALL);
    check_fences();
    CHECK_STEPS(FENCES);
    check_plain();
#ifdef WIDE
    __extension__ typedef unsigned __int128 wide;
    CHECK_ALL(wide);
    CHECK_STEPS(ALL);
    simulate();
    CHECK_ALL(wide);
    CHECK_STEPS(ALL);
    CHECK_WIDES(ALL);
#endif
    check_shown();
    return 0;
}
