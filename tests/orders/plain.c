/*
What bench-c/instrumented/orders.c does beside atomic accesses: races of plain ones, and histories that end since something else has stored.
*/
#include "program.c"
#include "../c/check.h"

static tmwatch_simulation *orders;
static _Alignas(16) unsigned char bytes[64];

static tmwatch_access plain_at(unsigned thread, const void *at)
{
    return (tmwatch_access){orders, thread, at, at, 1, 0};
}

static void loads(unsigned thread, const void *at, size_t size)
{
    tmwatch_access access = plain_at(thread, at);
    tmwatch_orders_plain(&access, size, false, true);
}

static void stores(unsigned thread, const void *at, size_t size)
{
    tmwatch_access access = plain_at(thread, at);
    tmwatch_orders_plain(&access, size, true, true);
}

/* An operation on a word. */
static uint64_t makes(unsigned thread, enum kind kind, enum word word, uint64_t value, int order)
{
    struct operation it = {kind, word, value, order, 0, 0, 0};
    uint64_t read = 0;
    make(orders, thread, &it, &read);
    return read;
}

static void begin(void)
{
    begin_run(orders);
    orders->has_race = false;
    orders->untracked_at[UNMARKED_STORE] = NULL;
}

/* Whether the race is that of these. */
static bool is_race(unsigned thread, enum access_kind kind, unsigned other, enum access_kind other_kind)
{
    const struct race *it = &orders->race;
    return orders->has_race && it->thread == thread && it->kind == kind && it->other == other && it->other_kind == other_kind;
}

/* Hands over from thread 0 to thread 1. */
static void hand_over(int release, int acquire)
{
    makes(0, WRITE, X, 1, release);
    while (makes(1, READ, X, 0, acquire) == 0)
        ;
}

static void check_races(void)
{
    begin();
    stores(0, bytes, 8);
    loads(0, bytes, 8);
    CHECK(!orders->has_race);
    loads(1, bytes + 4, 1);
    CHECK(is_race(1, PLAIN_LOAD, 0, PLAIN_STORE));
    begin();
    loads(0, bytes, 8);
    loads(1, bytes, 8);
    CHECK(!orders->has_race);
    stores(1, bytes, 1);
    CHECK(is_race(1, PLAIN_STORE, 0, PLAIN_LOAD));
    begin();
    stores(0, bytes, 1);
    stores(1, bytes + 1, 1);
    stores(2, bytes + 6, 4);
    stores(3, bytes + 10, 6);
    loads(0, bytes, 1);
    CHECK(!orders->has_race);
    stores(3, bytes + 9, 1);
    CHECK(orders->has_race);
    begin();
    stores(0, bytes + 8, 8);
    makes(0, READ, X, 0, RELAXED);
    stores(0, bytes, 8);
    loads(1, bytes + 8, 8);
    CHECK(orders->has_race);
}

/* What is stored plainly just before a lock is given back, a transaction ends, an untracked access or a fence is known after. */
static void check_handed(void)
{
    static const enum kind handed[][2] = {{UNLOCK, LOCK}, {UNLOCK, SHARE}, {ENDS, BEGINS}};
    for (unsigned i = 0; i < sizeof handed / sizeof handed[0]; i++) {
        begin();
        stores(0, bytes, 8);
        makes(0, handed[i][0], X, 0, 0);
        makes(1, handed[i][1], X, 0, 0);
        loads(1, bytes, 8);
        CHECK(!orders->has_race);
        stores(1, bytes, 8);
        makes(2, handed[i][1], X, 0, 0);
        loads(2, bytes, 8);
        CHECK(orders->has_race);
    }
    begin();
    tmwatch_access wide = {orders, 0, words, words, 16, RELAXED};
    stores(0, bytes, 8);
    tmwatch_orders_wide(&wide);
    wide.thread = 1;
    tmwatch_orders_wide(&wide);
    loads(1, bytes, 8);
    CHECK(!orders->has_race);
    begin();
    stores(0, bytes, 8);
    makes(0, FENCE, X, 0, RELEASE);
    hand_over(RELAXED, ACQUIRE);
    loads(1, bytes, 8);
    CHECK(!orders->has_race);
}

static unsigned used_cells(void)
{
    unsigned count = 0;
    for (unsigned i = 0; i < CELLS; i++)
        count += orders->cells[i].round == orders->round;
    return count;
}

static void check_ordered(void)
{
    static const struct {
        int release, acquire;
        bool is_race;
    } all[] = {{RELEASE, ACQUIRE, false}, {SEQUENTIAL, SEQUENTIAL, false}, {RELAXED, ACQUIRE, true}, {RELEASE, RELAXED, true}};
    for (unsigned i = 0; i < sizeof all / sizeof all[0]; i++) {
        begin();
        stores(0, bytes, 8);
        hand_over(all[i].release, all[i].acquire);
        loads(1, bytes, 8);
        CHECK(orders->has_race == all[i].is_race);
    }
    begin();
    hand_over(RELEASE, ACQUIRE);
    stores(0, bytes, 8);
    loads(1, bytes, 8);
    CHECK(orders->has_race);
    check_handed();
    begin();
    stores(0, bytes, 8);
    tmwatch_orders_forget(orders, bytes, sizeof bytes);
    CHECK(used_cells() == 1);
    stores(1, bytes, 8);
    CHECK(!orders->has_race);
    begin_run(orders);
    loads(0, bytes, 8);
    CHECK(!orders->has_race);
}

/* A plain access and an atomic one race too; two atomic ones do not. */
static void check_atomic(void)
{
    begin();
    makes(5, WRITE, Y, 1, RELAXED);
    makes(1, WRITE, Y, 2, RELAXED);
    makes(2, READ, Y, 0, RELAXED);
    CHECK(!orders->has_race);
    loads(2, (const void *)(uintptr_t)&words[Y], 8);
    CHECK(is_race(2, PLAIN_LOAD, 5, ATOMIC_STORE));
    begin();
    stores(0, (const void *)(uintptr_t)&words[Y], 8);
    makes(1, READ, Y, 0, SEQUENTIAL);
    CHECK(is_race(1, ATOMIC_LOAD, 0, PLAIN_STORE));
    begin();
    loads(0, (const void *)(uintptr_t)&words[Y], 8);
    makes(1, SWAP, Y, 1, SEQUENTIAL); /* (succeeds) */
    CHECK(is_race(1, ATOMIC_STORE, 0, PLAIN_LOAD));
    begin();
    words[Y] = 7;
    loads(0, (const void *)(uintptr_t)&words[Y], 8);
    makes(1, SWAP, Y, 1, SEQUENTIAL); /* (fails) */
    CHECK(!orders->has_race);
    begin();
    words[Y] = 7;
    stores(0, (const void *)(uintptr_t)&words[Y], 8);
    makes(1, SWAP, Y, 1, SEQUENTIAL);
    CHECK(is_race(1, ATOMIC_LOAD, 0, PLAIN_STORE));
    begin();
    makes(6, READ, Y, 0, RELAXED);
    loads(0, (const void *)(uintptr_t)&words[Y], 8);
    CHECK(!orders->has_race);
    stores(0, (const void *)(uintptr_t)&words[Y], 1);
    CHECK(is_race(0, PLAIN_STORE, 6, ATOMIC_LOAD));
    begin();
    makes(0, WRITE, Y, 1, RELAXED);
    loads(1, (const void *)(uintptr_t)&words[Z], 8);
    hand_over(RELEASE, ACQUIRE);
    stores(1, (const void *)(uintptr_t)&words[Y], 8);
    CHECK(!orders->has_race);
    for (unsigned other = 0; other < THREADS; other++) {
        unsigned thread = (other + 1) % THREADS;
        begin();
        makes(other, WRITE, Y, 1, RELAXED);
        loads(thread, (const void *)(uintptr_t)&words[Y], 8);
        CHECK(is_race(thread, PLAIN_LOAD, other, ATOMIC_STORE));
        begin();
        stores(other, bytes, 8);
        loads(thread, bytes, 8);
        CHECK(is_race(thread, PLAIN_LOAD, other, PLAIN_STORE));
    }
}

/* What is stored by code that isn't marked is what all load; so is what is stored plainly. */
static void check_unmarked(void)
{
    for (unsigned i = 0; i < 1000; i++) {
        begin();
        makes(0, WRITE, X, 1, RELAXED);
        makes(0, WRITE, X, 2, RELAXED);
        words[X] = 7;
        CHECK(makes(1, READ, X, 0, RELAXED) == 7 && orders->untracked_at[UNMARKED_STORE]);
        begin();
        makes(0, READ, X, 0, RELAXED);
        words[X] = 7;
        CHECK(makes(1, READ, X, 0, RELAXED) == 7 && orders->untracked_at[UNMARKED_STORE]);
        begin();
        makes(0, WRITE, X, 1, RELAXED);
        stores(0, (const void *)(uintptr_t)&words[X], 8);
        words[X] = 7;
        CHECK(makes(1, READ, X, 0, RELAXED) == 7 && !orders->untracked_at[UNMARKED_STORE]);
        begin();
        makes(0, WRITE, X, 1, RELAXED);
        tmwatch_orders_forget(orders, words, sizeof words);
        words[X] = 0;
        CHECK(makes(1, READ, X, 0, RELAXED) == 0 && !orders->untracked_at[UNMARKED_STORE]);
    }
}

/* What code that isn't marked stores releases nothing. */
static void check_unreleased(void)
{
    for (unsigned i = 0; i < 2; i++) {
        begin();
        tmwatch_access wide = {orders, 0, words, words, 16, RELAXED};
        stores(0, bytes, 8);
        if (i > 0)
            tmwatch_orders_wide(&wide);
        makes(0, READ, X, 0, RELAXED);
        words[X] = 7;
        CHECK(makes(1, READ, X, 0, ACQUIRE) == 7);
        loads(1, bytes, 8);
        CHECK(orders->has_race);
    }
}

/* A thread that loads again and again gets the newest value in the end: as late at first and in a later history. */
static void check_stale_end(void)
{
    unsigned most[2] = {0};
    for (unsigned i = 0; i < 4000; i++) {
        begin();
        for (unsigned history = 0; history < 2; history++) {
            makes(0, WRITE, X, 1, RELAXED);
            unsigned stale = 0;
            while (stale < MOST_STALE && makes(1, READ, X, 0, RELAXED) == 0)
                stale++;
            most[history] = stale > most[history] ? stale : most[history];
            if (stale < MOST_STALE)
                break;
            CHECK(history == 0 || makes(1, READ, X, 0, RELAXED) == 1);
            tmwatch_orders_forget(orders, words, sizeof words);
            words[X] = 0;
        }
    }
    CHECK(most[0] == MOST_STALE && most[1] == MOST_STALE);
}

enum { AROUND = 2, MOST_BYTES = (FEW_WORDS + MOST_WORDS) * WORD_BYTES };
static uint64_t block[AROUND + MOST_BYTES / WORD_BYTES];

/* Whether a word of the block has a history. */
static bool has_history(size_t word)
{
    return look_up(orders, (uintptr_t)&block[word], WORD_BYTES);
}

/* Of bytes that are given back, or stored by code that isn't marked, histories and plain accesses end, and of none beside. */
static void check_blocks(void)
{
    static const size_t sizes[] = {1, 2, 3, FEW_WORDS, FEW_WORDS + 1, MOST_WORDS, MOST_WORDS + 1, MOST_BYTES / WORD_BYTES};
    for (unsigned i = 0; i < 2 * sizeof sizes / sizeof sizes[0]; i++) {
        size_t size = sizes[i / 2];
        begin();
        for (size_t k = 0; k < size + AROUND; k++) {
            tmwatch_access it = {orders, 0, block, &block[k], WORD_BYTES, RELAXED};
            tmwatch_orders_load(&it);
            stores(0, &block[k], i % 2 == 0 ? WORD_BYTES : 0);
            tmwatch_orders_load(&it);
        }
        if (i % 2 == 0)
            tmwatch_orders_forget(orders, block + 1, size * WORD_BYTES);
        else
            stores(0, block + 1, size * WORD_BYTES);
        CHECK(has_history(0) && has_history(size + 1));
        for (size_t k = 1; k <= size; k++)
            CHECK(!has_history(k));
        if (i % 2 == 1)
            continue;
        for (size_t k = 1; k <= size; k++)
            loads(1, &block[k], WORD_BYTES);
        CHECK(!orders->has_race);
        loads(1, &block[i % 4 == 0 ? 0 : size + 1], WORD_BYTES);
        CHECK(orders->has_race);
    }
}

/* Of a block that takes all cells none keeps anything. */
static void check_cells(void)
{
    static uint64_t many[2 * CELLS];
    begin();
    for (unsigned i = 0; i < 2 * CELLS; i++)
        stores(0, &many[i], WORD_BYTES);
    tmwatch_orders_forget(orders, many, sizeof many);
    for (unsigned i = 0; i < 2 * CELLS; i++)
        loads(1, &many[i], WORD_BYTES);
    CHECK(!orders->has_race);
}

/* Each byte of a word has its own history, and each size its own value. */
static void check_bytes(void)
{
    begin();
    words[X] = 0x8877665544332211;
    tmwatch_access one = {orders, 0, words, (const volatile uint8_t *)words + 1, 1, RELAXED};
    tmwatch_access two = {orders, 0, words, (const volatile uint8_t *)words + 2, 2, RELAXED};
    tmwatch_access four = {orders, 0, words, (const volatile uint8_t *)words + 4, 4, RELAXED};
    CHECK(tmwatch_orders_load(&one) == 0x22 && tmwatch_orders_load(&two) == 0x4433 && tmwatch_orders_load(&four) == 0x88776655);
    CHECK(look_up(orders, (uintptr_t)one.at, 1) && look_up(orders, (uintptr_t)two.at, 2) && look_up(orders, (uintptr_t)four.at, 4));
    makes(1, READ, X, 0, RELAXED);
    CHECK(!look_up(orders, (uintptr_t)one.at, 1) && !look_up(orders, (uintptr_t)two.at, 2) && !look_up(orders, (uintptr_t)four.at, 4));
}

/* Makes sequentially consistent operations that the thread's next ones follow, until those before them are no longer told apart. */
static void pass_by(unsigned thread)
{
    for (unsigned i = 0; i < MOST_SEQUENTIAL; i++)
        makes(thread, READ, X, 0, SEQUENTIAL);
}

/* Sequentially consistent operations that are no longer told apart, or whose history has ended, come before those that follow. */
static void check_past(void)
{
    for (unsigned i = 0; i < 1000; i++) {
        begin();
        makes(2, WRITE, Y, 1, SEQUENTIAL);
        while (makes(0, READ, Y, 0, SEQUENTIAL) == 0)
            ;
        makes(0, WRITE, Z, 1, SEQUENTIAL);
        pass_by(0);
        makes(1, WRITE, Z, 2, SEQUENTIAL);
        CHECK(words[Z] == 1 || makes(1, READ, Y, 0, SEQUENTIAL) == 1);
        begin();
        makes(0, WRITE, Y, 1, SEQUENTIAL);
        makes(0, WRITE, X, 1, SEQUENTIAL);
        tmwatch_access half = {orders, 2, words, words, 4, RELAXED};
        tmwatch_orders_load(&half);
        makes(1, WRITE, X, 2, SEQUENTIAL);
        CHECK(makes(1, READ, Y, 0, SEQUENTIAL) == 1);
        begin();
        makes(0, WRITE, Y, 1, SEQUENTIAL);
        makes(0, WRITE, X, 1, SEQUENTIAL);
        words[X] = 7;
        makes(1, WRITE, X, 2, SEQUENTIAL);
        CHECK(makes(1, READ, Y, 0, SEQUENTIAL) == 1);
    }
}

/* Those of an object that is no more come before nothing; nor does the oldest one that is told apart. */
static void check_no_past(void)
{
    unsigned stale = 0, after = 0;
    for (unsigned i = 0; i < 1000; i++) {
        begin();
        makes(0, WRITE, X, 1, SEQUENTIAL);
        makes(0, WRITE, Z, 1, SEQUENTIAL);
        tmwatch_orders_forget(orders, &words[Z], sizeof words[Z]);
        stale += makes(1, READ, X, 0, SEQUENTIAL) == 0;
        begin();
        makes(0, READ, Y, 0, SEQUENTIAL);
        makes(0, WRITE, Z, 1, SEQUENTIAL);
        for (unsigned k = 1; k < MOST_SEQUENTIAL; k++)
            makes(0, READ, X, 0, SEQUENTIAL);
        after += makes(1, READ, Z, 0, SEQUENTIAL) == 0;
    }
    CHECK(stale > 0 && after > 0);
}

/* Nor does a thread's first operation come before a relaxed load by one who knows it, and has made a fence before: it is no fence. */
static void check_no_fence(void)
{
    unsigned stale = 0;
    for (unsigned i = 0; i < 1000; i++) {
        begin();
        makes(2, WRITE, Z, 1, SEQUENTIAL);
        makes(2, READ, X, 0, SEQUENTIAL);
        makes(0, WRITE, X, 1, SEQUENTIAL);
        makes(0, WRITE, Y, 1, RELEASE);
        makes(1, FENCE, X, 0, SEQUENTIAL);
        while (makes(1, READ, Y, 0, ACQUIRE) == 0)
            ;
        stale += makes(1, READ, Z, 0, RELAXED) == 0;
    }
    CHECK(stale > 0);
}

/* Accesses of other sizes of the same bytes see what memory holds. */
static void check_sizes(void)
{
    for (unsigned i = 0; i < 1000; i++) {
        begin();
        makes(0, WRITE, X, 0x1111111122222222, RELAXED);
        makes(0, WRITE, X, 0x3333333344444444, RELAXED);
        tmwatch_access half = {orders, 1, words, words, 4, RELAXED};
        CHECK(tmwatch_orders_load(&half) == 0x44444444);
        CHECK(makes(1, READ, X, 0, RELAXED) == 0x3333333344444444);
    }
}

/* Of many stores the last ones are kept, and a load finds any of them. */
static void check_stores(void)
{
    uint64_t oldest = UINT64_MAX;
    for (unsigned i = 0; i < 1000; i++) {
        begin();
        for (uint64_t value = 1; value <= 2 * MOST_STORES; value++)
            makes(0, WRITE, X, value, RELAXED);
        uint64_t found = makes(1, READ, X, 0, SEQUENTIAL);
        oldest = found < oldest ? found : oldest;
    }
    CHECK(oldest == MOST_STORES + 1);
}

/* A place that is emptied is used again, by any of its word. */
static void check_used(void)
{
    const tmwatch_access whole = {orders, 0, words, words, 8, RELAXED}, half = {orders, 0, words, (const volatile uint8_t *)words + 4, 4, RELAXED};
    begin();
    tmwatch_orders_load(&whole);
    tmwatch_orders_forget(orders, words, sizeof words[X]);
    tmwatch_orders_load(&half);
    tmwatch_orders_load(&whole);
    CHECK(orders->used == 1);
}

/* What a store of 8 bytes releases, a load of its half acquires. */
static void check_halves(void)
{
    for (unsigned i = 0; i < 1000; i++) {
        begin();
        makes(0, WRITE, Y, 1, RELAXED);
        makes(0, WRITE, X, 1, RELEASE);
        tmwatch_access half = {orders, 1, words, words, 4, ACQUIRE};
        tmwatch_orders_load(&half);
        CHECK(makes(1, READ, Y, 0, RELAXED) == 1);
    }
}

/* Beyond the table an access acquires and releases, and sees the newest: what it hands over is known. */
static void check_full(void)
{
    static uint64_t many[MOST_PLACES + 1];
    for (unsigned i = 0; i < 200; i++) {
        begin();
        makes(0, WRITE, Y, 1, RELAXED);
        for (unsigned k = 0; k < MOST_PLACES - 1; k++) {
            tmwatch_access one = {orders, 0, many, &many[k], 8, RELAXED};
            tmwatch_orders_load(&one);
        }
        tmwatch_access last = {orders, 0, many, &many[MOST_PLACES], 8, RELAXED};
        CHECK(tmwatch_orders_store(&last, 1));
        last.thread = 1;
        tmwatch_orders_load(&last);
        CHECK(makes(1, READ, Y, 0, RELAXED) == 1);
        tmwatch_access wide = {orders, 1, bytes, bytes, 16, RELAXED};
        tmwatch_orders_wide(&wide);
        wide.thread = 2;
        tmwatch_orders_wide(&wide);
        CHECK(makes(2, READ, Y, 0, RELAXED) == 1);
    }
}

/* So does one of 16 bytes, also from and to its halves. */
static void check_wide(void)
{
    for (unsigned i = 0; i < 1000; i++) {
        begin();
        makes(0, WRITE, Y, 1, RELAXED);
        tmwatch_access wide = {orders, 0, bytes, bytes, 16, RELAXED};
        tmwatch_orders_wide(&wide);
        wide.thread = 1;
        tmwatch_orders_wide(&wide);
        CHECK(makes(1, READ, Y, 0, RELAXED) == 1);
    }
    for (unsigned i = 0; i < 1000; i++) {
        begin();
        makes(0, WRITE, Z, 1, RELAXED);
        tmwatch_access wide = {orders, 0, words, words, 16, RELAXED};
        tmwatch_orders_wide(&wide);
        words[Y] = 7;
        CHECK(makes(1, READ, Y, 0, ACQUIRE) == 7 && !orders->untracked_at[UNMARKED_STORE]);
        CHECK(makes(1, READ, Z, 0, RELAXED) == 1);
        makes(1, WRITE, Z, 2, RELAXED);
        makes(1, WRITE, X, 1, RELEASE);
        wide.thread = 2;
        tmwatch_orders_wide(&wide);
        CHECK(look_up(orders, (uintptr_t)&words[Z], sizeof words[Z])->count > 1 && makes(2, READ, Z, 0, RELAXED) == 2);
    }
}

/* Beyond the table all locks are one. */
static void check_locks(void)
{
    begin();
    makes(0, WRITE, Y, 1, RELAXED);
    for (unsigned i = 0; i < MOST_LOCKS; i++)
        tmwatch_orders_unlocks(orders, 2, &bytes[i]);
    tmwatch_orders_unlocks(orders, 0, words);
    CHECK(orders->locks_used == MOST_LOCKS - 1);
    tmwatch_orders_locked(orders, 1, words, false);
    CHECK(makes(1, READ, Y, 0, RELAXED) == 1);
}

/* Of so many words of one access each is looked at. */
static void check_words(void)
{
    static _Alignas(WORD_BYTES) unsigned char many[MOST_WORDS * WORD_BYTES];
    begin();
    stores(0, many, sizeof many);
    loads(1, many + sizeof many - 1, 1);
    CHECK(orders->has_race);
}

/* A plain load races with no atomic one, and not with a store that is known. */
static void check_readers(void)
{
    begin();
    tmwatch_orders_still(orders);
    makes(0, WRITE, X, 7, RELAXED);
    makes(0, UNLOCK, X, 0, RELAXED);
    makes(2, LOCK, X, 0, RELAXED);
    CHECK(makes(1, READ, X, 0, RELAXED) == 7);
    loads(2, &words[X], sizeof words[X]);
    CHECK(!orders->has_race);
}

/* The generator's numbers, as its authors' program prints them for this seed. */
static void check_draws(void)
{
    static const uint64_t all[] = {6457827717110365317u, 3203168211198807973u, 9817491932198370423u, 4593380528125082431u, 16408922859458223821u};
    uint64_t draws = 1234567;
    for (unsigned i = 0; i < sizeof all / sizeof all[0]; i++)
        CHECK(draw_below(&draws, 1u << 31) == all[i] >> 33);
}

int main(void)
{
    orders = tmwatch_orders_new(5, &recorded, NULL);
    check_races();
    check_ordered();
    check_atomic();
    check_unmarked();
    check_unreleased();
    check_stale_end();
    check_blocks();
    check_cells();
    check_bytes();
    check_past();
    check_no_past();
    check_no_fence();
    check_sizes();
    check_stores();
    check_used();
    check_halves();
    check_full();
    check_wide();
    check_locks();
    check_readers();
    check_words();
    check_draws();
    free(orders);
    return 0;
}
