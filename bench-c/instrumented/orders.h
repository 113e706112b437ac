/* What the instrumented library, waits.c and the bench call of orders.c: the orders of C++20 by simulation. */
#include <stdatomic.h>
#include <stdbool.h>
#include <stddef.h>
#include <stdint.h>
#include <stdio.h>

/* The simulated memory of one bench. */
typedef struct tmwatch_simulation tmwatch_simulation;

/* An access: in whose memory, by which of its threads, where it is in the program, and by what order. */
typedef struct tmwatch_access {
    tmwatch_simulation *orders;
    unsigned thread;
    const void *caller;
    const volatile void *at;
    unsigned bytes;
    int order;
} tmwatch_access;

/* What a compare-and-swap does: it fails; or it succeeds, and stores after the newest store or after an older one. */
enum tmwatch_compared { TMWATCH_FAILS, TMWATCH_TAKES_OLDER, TMWATCH_TAKES_NEWEST };

/* A load that may be delayed past later stores of its thread, and return what another thread stores: where both are, and which of those was
   read where. In a second run this load of this round returns this value; and a hash says whether all accesses up to the store are the same. */
typedef struct tmwatch_delay {
    const void *load, *store, *met_stored, *met_loaded;
    unsigned loader, storer;
    uint32_t round, index;
    uint64_t before, value, accesses; /* before: what it returns in the first run */
} tmwatch_delay;

/* What a first run has found; or which one a second run makes, and how many events then precede the load's answer, and the store; or 0. */
enum { TMWATCH_MOST_DELAYS = 32 };
typedef struct tmwatch_delays {
    unsigned count;
    tmwatch_delay found[TMWATCH_MOST_DELAYS];
    const tmwatch_delay *made;
    uint64_t answered, stored;
} tmwatch_delays;

/* A load, as drawn: what it returns. */
uint64_t tmwatch_orders_load(const tmwatch_access *access);

/* A store: whether it is the newest of its place, and so goes to memory. */
bool tmwatch_orders_store(const tmwatch_access *access, uint64_t value);

/* A read-modify-write has loaded *held, as drawn: whether from the newest store. A compare-and-swap looks for *held: what it does, and what it
   has loaded. What they store, if they do, follows at once. */
bool tmwatch_orders_take(const tmwatch_access *access, uint64_t *held);
enum tmwatch_compared tmwatch_orders_compare(const tmwatch_access *access, uint64_t *held, int failed, bool is_weak);
void tmwatch_orders_change(const tmwatch_access *access, uint64_t value);

void tmwatch_orders_fence(const tmwatch_access *access);

/* A plain access: whether it races, unless its bytes may be given back untracked. A store ends the history of its places. */
void tmwatch_orders_plain(const tmwatch_access *access, size_t bytes, bool stores, bool is_lasting);

/* An access of 16 bytes: it acquires and releases, also what its halves do, and their histories end. */
void tmwatch_orders_wide(const tmwatch_access *access);

/* For the bench and waits.c, which may be linked without it. A memory, to be freed, for a bench whose record has *recorded events; or null. */
#define WEAK __attribute__((weak))
WEAK tmwatch_simulation *tmwatch_orders_new(uint64_t seed, const atomic_uint_least64_t *recorded, tmwatch_delays *delays);

/* Between two rounds: all threads know all. And in this round no load is to be stale, and no store late. */
WEAK void tmwatch_orders_round(tmwatch_simulation *orders);
WEAK void tmwatch_orders_still(tmwatch_simulation *orders);

/* An attempt's first call has been recorded, or its end: what has ended before it began happens before it. */
WEAK void tmwatch_orders_begins(tmwatch_simulation *orders, unsigned thread);
WEAK void tmwatch_orders_ends(tmwatch_simulation *orders, unsigned thread);

/* A read is about to be answered by this value. */
WEAK void tmwatch_orders_answers(tmwatch_simulation *orders, unsigned thread, uint64_t value);

/* A lock has been taken, or is about to be given back: a shared one orders nothing among those that share it. */
WEAK void tmwatch_orders_locked(tmwatch_simulation *orders, unsigned thread, const volatile void *lock, bool is_shared);
WEAK void tmwatch_orders_unlocks(tmwatch_simulation *orders, unsigned thread, const volatile void *lock);

/* These bytes are about to be another object's, or to be stored by code that isn't marked: nothing of them is kept. */
WEAK void tmwatch_orders_forget(tmwatch_simulation *orders, const volatile void *at, size_t bytes);

/* The system is asked to wait for this word, or to wake who does: if no marked access is of it, a lock orders threads untracked. */
WEAK void tmwatch_orders_futex(tmwatch_simulation *orders, const volatile void *word, const void *caller);

/* A function of the memory's own that orders threads by what the compiler hasn't marked; or null. */
struct tmwatch_memory;
WEAK const char *tmwatch_orders_unmarked(const struct tmwatch_memory *memory);

/* Tells where in the program loads did not return the newest value, from this length of the record to that, and what they missed. */
WEAK void tmwatch_orders_tell(const tmwatch_simulation *orders, FILE *file, uint64_t from, uint64_t to);

/* Tells the first race of plain accesses, if there is one, or a delayed load, in so many bytes without a quote; and, of a run that is wrong,
   what was met that isn't simulated, which bits of tmwatch_untracked say too. */
WEAK void tmwatch_orders_tell_race(const tmwatch_simulation *orders, char *text, size_t size);
WEAK void tmwatch_orders_tell_delay(const tmwatch_delay *delay, char *text, size_t size);
WEAK uint64_t tmwatch_orders_tell_untracked(const tmwatch_simulation *orders, FILE *file, bool is_wrong);
