/*
RingSTM (Spear, Michael and von Praun, SPAA 2008) with the weakest orders that are right in C11: a commit takes the next entry of a ring, says
there which words it writes, writes them back, and completes after the entry before. A transaction that meets newer entries aborts if they
write what it has read, and else begins where they are complete.

WRONG: 1 whether an entry is complete is loaded relaxed at the beginning, 2 after a read; 3 no acquire fence between a value and the look at
the ring; 4 an entry is published relaxed; 5 no release fence between entry and values; 6 an entry's number is loaded relaxed; 7 completed
relaxed; 8 no acquire when it waits for the entry before.
*/
#include "ordered.h"

enum { ENTRIES = 1024 };

/* Entry i lies at i % ENTRIES. Its number is published last. */
struct entry {
    _Atomic uint64_t number, written;
    atomic_bool is_writing;
};

static struct entry entries[ENTRIES];
static _Atomic uint64_t newest, words[REGISTERS];

static struct entry *entry_of(uint64_t number)
{
    return &entries[number % ENTRIES];
}

static bool is_complete(uint64_t number, memory_order order)
{
    struct entry *entry = entry_of(number);
    return LOAD(entry->number, ORDER(6, acquire, relaxed)) >= number && !LOAD(entry->is_writing, order);
}

static bool begin(void *memory UNUSED, void *tx)
{
    uint64_t now = LOAD(newest, relaxed);
    while (!is_complete(now, ORDER(1, acquire, relaxed)))
        now--;
    *(struct tx *)tx = (struct tx){.snapshot = now};
    return true;
}

/* Whether no newer entry writes what was read. Then the transaction goes on from the last one that is complete with all before it. */
static bool check(struct tx *tx)
{
    uint64_t now = LOAD(newest, relaxed), complete = now;
    for (uint64_t i = now; i > tx->snapshot; i--) {
        struct entry *entry = entry_of(i);
        while (LOAD(entry->number, ORDER(6, acquire, relaxed)) < i)
            ;
        uint64_t written = LOAD(entry->written, relaxed);
        for (unsigned reg = 0; reg < REGISTERS; reg++)
            if (tx->has_read[reg] && written >> reg & 1)
                return false;
        if (LOAD(entry->is_writing, ORDER(2, acquire, relaxed)))
            complete = i - 1;
    }
    tx->snapshot = complete;
    return true;
}

static bool read(void *memory UNUSED, void *tx, unsigned reg, uint64_t *value)
{
    struct tx *it = tx;
    if (it->writes[reg]) {
        *value = it->written[reg];
        return true;
    }
    *value = LOAD(words[reg], relaxed);
    it->has_read[reg] = true;
    FENCE(3, acquire);
    return check(it);
}

/* Takes the next entry of the ring, once all before it are checked: its number, or 0. */
static uint64_t take_entry(struct tx *tx)
{
    uint64_t before, held;
    do {
        held = before = LOAD(newest, relaxed);
        if (!check(tx))
            return 0;
    } while (!SWAP(newest, &held, before + 1, relaxed));
    return before + 1;
}

static void publish(const struct tx *tx, uint64_t number)
{
    struct entry *entry = entry_of(number);
    uint64_t written = 0;
    for (unsigned reg = 0; reg < REGISTERS; reg++)
        written |= (uint64_t)tx->writes[reg] << reg;
    STORE(entry->is_writing, true, relaxed);
    STORE(entry->written, written, relaxed);
    STORE(entry->number, number, ORDER(4, release, relaxed));
}

static bool commit(void *memory UNUSED, void *tx)
{
    struct tx *it = tx;
    uint64_t number = it->has_written ? take_entry(it) : 0;
    if (number == 0)
        return !it->has_written;
    publish(it, number);
    /* Values are written back in the order of the ring. */
    while (!is_complete(number - 1, ORDER(8, acquire, relaxed)))
        ;
    FENCE(5, release);
    for (unsigned reg = 0; reg < REGISTERS; reg++)
        if (it->writes[reg])
            STORE(words[reg], it->written[reg], relaxed);
    STORE(entry_of(number)->is_writing, false, ORDER(7, release, relaxed));
    return true;
}

BENCH(begin, read, keep_write, commit, forget)
