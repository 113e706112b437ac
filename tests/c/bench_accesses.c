/*
Each function of bench-c/instrumented/accesses.c, and accesses_16.c, by itself: its steps (s), what it asks the model of C++20, where one is, and
what that is told, its answer, and then what the place holds. A line for each size and each kind of memory: without a model, and with one that answers by older
values, by newest ones, or by failed swaps. Then how long stores are delayed, and what is not.
*/
#include "../../bench-c/instrumented/accesses.c"
#include "check.h"

enum { THREAD = 5, OLD = 40, NOT_DRAWN = 1 /* after which no draw lets a store out */ };
static _Alignas(16) unsigned char place[64];
static char model;
static atomic_bool has_buffers;
static tmwatch_step_how how = {.has_buffers = &has_buffers};
static bool is_bench = true, has_model, is_newest, sees_free = true;
static enum tmwatch_compared compared;
static unsigned steps;

tmwatch_simulation *tmwatch_step_orders(void)
{
    return has_model ? (tmwatch_simulation *)&model : NULL;
}
tmwatch_step_how *tmwatch_step_accesses(void)
{
    return is_bench ? &how : NULL;
}
unsigned tmwatch_thread(void)
{
    return THREAD;
}
bool tmwatch_step_sees_free(void)
{
    return sees_free;
}
void tmwatch_step_at(const void *caller, unsigned pauses)
{
    CHECK(caller && pauses == 1);
    tmwatch_step_drain_of(tmwatch_step_accesses(), pauses);
    steps++;
}

/* Tells what the model is asked: which bytes of the place, and by what order. */
static void tell(const tmwatch_access *it, const char *name)
{
    CHECK(it->orders == tmwatch_step_orders() && it->thread == THREAD && it->caller);
    printf("%s %u+%u o%d", name, it->at ? (unsigned)((uintptr_t)it->at - (uintptr_t)place) : 99, it->bytes, it->order);
}
uint64_t tmwatch_orders_load(const tmwatch_access *it)
{
    tell(it, "load");
    return OLD;
}
bool tmwatch_orders_store(const tmwatch_access *it, uint64_t value)
{
    tell(it, "store");
    printf(" %u", (unsigned)value);
    return is_newest;
}
bool tmwatch_orders_take(const tmwatch_access *it, uint64_t *held)
{
    tell(it, "take");
    *held = OLD;
    return is_newest;
}
enum tmwatch_compared tmwatch_orders_compare(const tmwatch_access *it, uint64_t *held, int failed, bool is_weak)
{
    tell(it, is_weak ? "weak" : "strong");
    printf(" o%d %u", failed, (unsigned)*held);
    *held = OLD;
    return compared;
}
void tmwatch_orders_change(const tmwatch_access *it, uint64_t value)
{
    tell(it, " change");
    printf(" %u", (unsigned)value);
}
void tmwatch_orders_fence(const tmwatch_access *it)
{
    tell(it, "fence");
}
void tmwatch_orders_wide(const tmwatch_access *it)
{
    tell(it, "wide");
}
void tmwatch_orders_plain(const tmwatch_access *it, size_t bytes, bool stores, bool is_lasting)
{
    tell(it, stores ? "stores" : "loads");
    printf(" %u%s", (unsigned)bytes, is_lasting ? "" : " unseen");
}

/* Makes a call, and tells its steps; its answer, and what the place holds then. */
#define TELL(call)                                      \
    do {                                                \
        steps = 0;                                      \
        printf("[");                                    \
        call;                                           \
        printf("] s%u ", steps);                        \
    } while (0)
#define ANSWER(bits, name, ...) \
    TELL(unsigned answer = (unsigned)__tsan_atomic##bits##_##name(at, __VA_ARGS__); printf(" = %u, %u", answer, (unsigned)*at))
/* Three is in the place first, which a swap looks for or doesn't. */
#define SIZE(bits, type)                                                                          \
    do {                                                                                          \
        type *at = (type *)place, held = 3;                                                       \
        *at = 3;                                                                                  \
        ANSWER(bits, load, __ATOMIC_ACQUIRE);                                                     \
        TELL(__tsan_atomic##bits##_store(at, 6, __ATOMIC_RELEASE); printf(", %u", (unsigned)*at)); \
        tmwatch_step_drain();                                                                     \
        ANSWER(bits, exchange, 5, __ATOMIC_ACQUIRE);                                              \
        ANSWER(bits, fetch_add, 9, __ATOMIC_RELEASE);                                             \
        ANSWER(bits, fetch_sub, 4, __ATOMIC_ACQ_REL);                                             \
        ANSWER(bits, fetch_and, 14, __ATOMIC_RELAXED);                                            \
        ANSWER(bits, fetch_or, 17, __ATOMIC_SEQ_CST);                                             \
        ANSWER(bits, fetch_xor, 7, __ATOMIC_ACQUIRE);                                             \
        ANSWER(bits, fetch_nand, 12, __ATOMIC_RELEASE);                                           \
        *at = 3;                                                                                  \
        ANSWER(bits, compare_exchange_val, 3, 8, __ATOMIC_ACQ_REL, __ATOMIC_ACQUIRE);             \
        ANSWER(bits, compare_exchange_strong, &held, 9, __ATOMIC_RELEASE, __ATOMIC_RELAXED);      \
        printf("%u ", (unsigned)held);                                                            \
        held = 8;                                                                                 \
        ANSWER(bits, compare_exchange_weak, &held, 7, __ATOMIC_ACQUIRE, __ATOMIC_RELAXED);        \
        printf("%u\n", (unsigned)held);                                                           \
    } while (0)
static void tell_atomics(void)
{
    SIZE(8, uint8_t);
    SIZE(16, uint16_t);
    SIZE(32, uint32_t);
    SIZE(64, uint64_t);
    TELL(__tsan_atomic_thread_fence(__ATOMIC_RELEASE));
    TELL(__tsan_atomic_thread_fence(__ATOMIC_SEQ_CST));
    putchar('\n');
}

/* Of 16 bytes, whose halves are told apart. */
__extension__ typedef unsigned __int128 wide;
wide __tsan_atomic128_load(const volatile wide *at, int order);
void __tsan_atomic128_store(volatile wide *at, wide value, int order);
wide __tsan_atomic128_compare_exchange_val(volatile wide *at, wide held, wide value, int order, int failed);
#define WIDE(high, low) ((wide)(high) << 64 | (low))
#define HALVES(value) (unsigned)((value) >> 64), (unsigned)(value)
#define WIDELY(call) TELL(wide answer = call; printf(" = %u-%u, %u-%u", HALVES(answer), HALVES(*at)))
#define CHANGE_WIDELY(name, value)                                              \
    do {                                                                        \
        wide __tsan_atomic128_##name(volatile wide * it, wide other, int order); \
        WIDELY(__tsan_atomic128_##name(at, value, __ATOMIC_RELAXED));           \
    } while (0)
#define SWAP_WIDELY(name, looked_for)                                                                          \
    do {                                                                                                       \
        int __tsan_atomic128_##name(volatile wide * it, wide * held_there, wide value, int order, int failed); \
        wide held = looked_for;                                                                                \
        WIDELY((wide)__tsan_atomic128_##name(at, &held, *at + 1, __ATOMIC_RELAXED, __ATOMIC_RELAXED));         \
        printf("%u-%u ", HALVES(held));                                                                        \
    } while (0)
static void tell_wide(void)
{
    wide *at = (wide *)place;
    uint64_t values[] = {0, 1, (uintptr_t)at};
    for (int i = 0; i < 3; i++) {
        *at = values[i];
        CHECK(__tsan_atomic128_load(at, __ATOMIC_RELAXED) == values[i] && *at == values[i]);
    }
    TELL(__tsan_atomic128_store(at, WIDE(3, 5), __ATOMIC_RELAXED));
    WIDELY(__tsan_atomic128_load(at, __ATOMIC_RELAXED));
    CHANGE_WIDELY(exchange, WIDE(7, 9));
    CHANGE_WIDELY(fetch_add, WIDE(1, 2));
    CHANGE_WIDELY(fetch_sub, WIDE(2, 1));
    CHANGE_WIDELY(fetch_and, WIDE(14, 11));
    CHANGE_WIDELY(fetch_or, WIDE(9, 4));
    CHANGE_WIDELY(fetch_xor, WIDE(3, 1));
    CHANGE_WIDELY(fetch_nand, WIDE(5, 6));
    TELL(__tsan_atomic128_store(at, WIDE(3, 5), __ATOMIC_RELAXED));
    WIDELY(__tsan_atomic128_compare_exchange_val(at, WIDE(3, 5), WIDE(4, 6), __ATOMIC_RELAXED, __ATOMIC_RELAXED));
    WIDELY(__tsan_atomic128_compare_exchange_val(at, WIDE(4, 5), WIDE(1, 1), __ATOMIC_RELAXED, __ATOMIC_RELAXED));
    SWAP_WIDELY(compare_exchange_strong, WIDE(4, 6));
    SWAP_WIDELY(compare_exchange_strong, WIDE(4, 6));
    SWAP_WIDELY(compare_exchange_weak, WIDE(4, 7));
    SWAP_WIDELY(compare_exchange_weak, WIDE(3, 7));
    putchar('\n');
}

#define PLAINLY(infix, size)                                 \
    TELL(__tsan_##infix##read##size(place + size));          \
    TELL(__tsan_##infix##write##size(place + size));         \
    TELL(__tsan_##infix##read_write##size(place + size))
#define ALL_PLAINLY(infix) \
    PLAINLY(infix, 1);     \
    PLAINLY(infix, 2);     \
    PLAINLY(infix, 4);     \
    PLAINLY(infix, 8);     \
    PLAINLY(infix, 16)
static void tell_plain(void)
{
    ALL_PLAINLY();
    ALL_PLAINLY(unaligned_);
    ALL_PLAINLY(volatile_);
    ALL_PLAINLY(unaligned_volatile_);
    TELL(__tsan_read_range(place, 5));
    TELL(__tsan_write_range(place, 6));
    memset(place, 1, sizeof place);
    TELL(CHECK(__tsan_memset(place + 8, 2, 4) == place + 8));
    TELL(CHECK(__tsan_memcpy(place + 20, place + 10, 3) == place + 20));
    TELL(CHECK(__tsan_memmove(place + 7, place + 8, 2) == place + 7));
    for (unsigned i = 0; i < 24; i++)
        printf("%d", place[i]);
    putchar('\n');
}

/* A store that is delayed is out once it is drawn, at one step in eight; or if it is the oldest of nine; or before one that isn't delayed, the
   strongest fence, a read-modify-write, or an access of 16 bytes. */
static void check_delayed(void)
{
    static uint64_t words[9];
    how = (tmwatch_step_how){.has_buffers = &has_buffers};
    steps = 0;
    for (uint64_t i = 1; i <= 1000; i++) {
        __tsan_atomic64_store(&words[i % 9], i, __ATOMIC_RELEASE);
        while (words[i % 9] != i)
            __tsan_atomic_thread_fence(__ATOMIC_ACQ_REL);
    }
    CHECK(steps == 8957);
    for (uint64_t i = 0; i < 9; i++) {
        how.draws = NOT_DRAWN;
        __tsan_atomic64_store(&words[i], 7, __ATOMIC_RELAXED);
        CHECK((words[0] == 7) == (i == 8) && words[1] != 7);
    }
    __tsan_atomic64_store(&words[8], 8, __ATOMIC_SEQ_CST);
    CHECK(words[7] == 7 && words[8] == 8);
    how.draws = NOT_DRAWN;
    __tsan_atomic64_store(&words[0], 9, __ATOMIC_RELEASE);
    how.draws = NOT_DRAWN;
    __tsan_atomic_thread_fence(__ATOMIC_ACQ_REL);
    CHECK(words[0] == 7);
    how.draws = NOT_DRAWN;
    __tsan_atomic_thread_fence(__ATOMIC_SEQ_CST);
    CHECK(words[0] == 9);
    how.draws = NOT_DRAWN;
    __tsan_atomic64_store(&words[0], 10, __ATOMIC_RELEASE);
    __tsan_atomic128_load((wide *)place, __ATOMIC_RELAXED);
    CHECK(words[0] == 10);
    for (uint64_t i = 11; i < 13; i++) {
        how.draws = NOT_DRAWN;
        __tsan_atomic64_store(&words[0], i, __ATOMIC_RELEASE);
        if (i == 11)
            __tsan_atomic64_fetch_add(&words[1], 1, __ATOMIC_RELAXED);
        else
            __tsan_atomic64_compare_exchange_val(&words[1], 0, 0, __ATOMIC_RELAXED, __ATOMIC_RELAXED);
        CHECK(words[0] == i);
    }
}

/* Whether a store there is delayed. */
static bool is_delayed(uint64_t *at)
{
    uint64_t before = *at;
    how.draws = NOT_DRAWN;
    __tsan_atomic64_store(at, before + 1, __ATOMIC_RELAXED);
    bool is_out = *at != before;
    tmwatch_step_drain();
    CHECK(*at == before + 1);
    return !is_out;
}
static void check_which(void)
{
    static uint64_t words[4];
    uint64_t local[1] = {0};
    for (unsigned part = 0; part < 2; part++) {
        how = (tmwatch_step_how){.has_buffers = &has_buffers};
        how.own[part] = (uintptr_t)&words[1];
        how.own_end[part] = (uintptr_t)&words[3];
        for (unsigned i = 0; i < 4; i++)
            CHECK(is_delayed(&words[i]) == (i == 0 || i == 3));
        CHECK(is_delayed(local) && !how.is_undelayed);
    }
    sees_free = false;
    CHECK(is_delayed(words) && !how.is_undelayed);
    CHECK(!is_delayed(local) && how.is_undelayed);
    CHECK(is_delayed(words) && how.is_undelayed);
    sees_free = true;
    is_bench = false;
    CHECK(!is_delayed(words));
    is_bench = true;
}

/* What is delayed comes out before a yield; or once another thread drains it, after which nothing is delayed. */
static void check_drained(void)
{
    static uint64_t word;
    how = (tmwatch_step_how){.has_buffers = &has_buffers};
    for (unsigned pauses = 1; pauses < 3; pauses++) {
        how.draws = NOT_DRAWN;
        __tsan_atomic64_store(&word, pauses, __ATOMIC_RELAXED);
        how.draws = NOT_DRAWN;
        tmwatch_step_drain_of(&how, pauses);
        CHECK((word == pauses) == (pauses > 1));
    }
    CHECK(is_delayed(&word));
    how.draws = NOT_DRAWN;
    __tsan_atomic64_store(&word, 7, __ATOMIC_RELAXED);
    has_buffers = is_bench = false;
    CHECK(word != 7);
    tmwatch_step_drain_of(&how, 0);
    is_bench = true;
    CHECK(word == 7 && how.buffered == 0 && !is_delayed(&word));
    has_buffers = true;
}

/* A load sees its thread's newest store. One of other bytes waits until what overlaps it is out, and a plain access until all is. */
static void check_forwarded(void)
{
    static uint64_t words[2];
    uint32_t *halves = (uint32_t *)words;
    how = (tmwatch_step_how){.has_buffers = &has_buffers, .draws = NOT_DRAWN};
    __tsan_atomic64_store(&words[0], 1, __ATOMIC_RELAXED);
    how.draws = NOT_DRAWN;
    __tsan_atomic32_store(&halves[2], 2, __ATOMIC_RELAXED);
    how.draws = NOT_DRAWN;
    CHECK(__tsan_atomic64_load(&words[0], __ATOMIC_RELAXED) == 1);
    how.draws = NOT_DRAWN;
    CHECK(__tsan_atomic32_load(&halves[3], __ATOMIC_RELAXED) == 0);
    __tsan_read4(&halves[3]);
    CHECK(words[0] == 0 && words[1] == 0);
    how.draws = NOT_DRAWN;
    CHECK(__tsan_atomic32_load(&halves[1], __ATOMIC_RELAXED) == 0 && words[0] == 1 && words[1] == 2);
    for (unsigned i = 0; i < 3; i++) {
        how.draws = NOT_DRAWN;
        __tsan_atomic32_store(&halves[0], i, __ATOMIC_RELAXED);
        if (i == 0)
            __tsan_read8(&halves[0]);
        else if (i == 1)
            __tsan_read1((unsigned char *)&halves[0] + 3);
        else
            __tsan_write1(place);
        CHECK(halves[0] == i);
    }
    words[0] = UINT64_C(1) << 32;
    how.draws = NOT_DRAWN;
    __tsan_atomic32_store(&halves[0], 3, __ATOMIC_RELAXED);
    CHECK(__tsan_atomic64_load(&words[0], __ATOMIC_RELAXED) == (UINT64_C(1) << 32) + 3);
}

int main(void)
{
    tell_atomics();
    tell_wide();
    has_model = true;
    tell_wide();
    for (int i = TMWATCH_FAILS; i <= TMWATCH_TAKES_NEWEST; i++) {
        compared = (enum tmwatch_compared)i;
        is_newest = compared == TMWATCH_TAKES_NEWEST;
        tell_atomics();
    }
    tell_plain();
    how.has_plain = true;
    how.own[0] = (uintptr_t)place + 8;
    how.own_end[0] = (uintptr_t)place + 16;
    tell_plain();
    sees_free = is_bench = false;
    tell_plain();
    is_bench = sees_free = true;
    has_model = false;
    has_buffers = true;
    check_delayed();
    check_which();
    check_drained();
    check_forwarded();
    return 0;
}
