/*
Hazard pointers (Michael, TPDS 2004) over one root of a snapshot, with the weakest orders that are right in C11: a transaction says which copy
it reads, and looks whether that is still the root's. A commit puts a changed copy there; the old one is used again when nobody reads it.

WRONG: 1 no fence between the hazard and the second look at the root; 2 that look is relaxed; 3 a hazard is lowered relaxed; 4 a copy is
published relaxed; 5 no fence between the commit and the look at hazards; 6 that look is relaxed. 3 and 6 take loads that are delayed past
later stores.
*/
#include "ordered.h"

enum { SPARE = 6 };

struct copy {
    _Atomic uint64_t words[REGISTERS];
};

struct protected {
    struct copy *root;
    bool has_written, writes[REGISTERS];
    uint64_t written[REGISTERS];
};

/* Copies that a thread may use again: at first its own, and then those that its commits have replaced; and whether somebody may read one. */
struct thread {
    struct copy own[SPARE], *spare[SPARE];
    bool is_read[SPARE];
    _Atomic(struct copy *) hazard;
};

static struct thread threads[MOST_THREADS];
static struct copy first;
static _Atomic(struct copy *) root = &first;

static bool begin(void *memory UNUSED, void *tx)
{
    struct thread *mine = &threads[tmwatch_thread()];
    struct copy *copy, *now = LOAD(root, relaxed);
    do {
        copy = now;
        /* (relaxed, it would end the release sequence of the store that has lowered it) */
        STORE(mine->hazard, copy, memory_order_release);
        FENCE(1, seq_cst);
        now = LOAD(root, ORDER(2, acquire, relaxed));
    } while (now != copy);
    *(struct protected *)tx = (struct protected){.root = copy};
    return true;
}

static bool read(void *memory UNUSED, void *tx, unsigned reg, uint64_t *value)
{
    struct protected *it = tx;
    *value = it->writes[reg] ? it->written[reg] : LOAD(it->root->words[reg], relaxed);
    return true;
}

static bool write(void *memory UNUSED, void *tx, unsigned reg, uint64_t value)
{
    struct protected *it = tx;
    it->has_written = it->writes[reg] = true;
    it->written[reg] = value;
    return true;
}

static void cancel(void *memory UNUSED, void *tx UNUSED)
{
    STORE(threads[tmwatch_thread()].hazard, NULL, ORDER(3, release, relaxed));
}

static bool is_read(const struct copy *copy)
{
    for (unsigned i = 0; i < MOST_THREADS; i++)
        if (LOAD(threads[i].hazard, ORDER(6, acquire, relaxed)) == copy)
            return true;
    return false;
}

/* Which spare copy nobody reads, or SPARE. */
static unsigned find_spare(struct thread *mine)
{
    unsigned i = 0;
    while (i < SPARE && mine->is_read[i] && (mine->is_read[i] = is_read(mine->spare[i])))
        i++;
    if (i < SPARE && !mine->spare[i])
        mine->spare[i] = &mine->own[i];
    return i;
}

/* Puts the copy in the root's place, and keeps what stood there for later. */
static bool replace(struct thread *mine, unsigned i, struct copy *old)
{
    struct copy *held = old;
    bool is_done = SWAP(root, &held, mine->spare[i], ORDER(4, release, relaxed));
    cancel(NULL, NULL);
    if (is_done) {
        mine->spare[i] = old;
        FENCE(5, seq_cst);
        mine->is_read[i] = is_read(old);
    }
    return is_done;
}

static bool commit(void *memory, void *tx)
{
    struct protected *it = tx;
    struct thread *mine = &threads[tmwatch_thread()];
    unsigned i = it->has_written ? find_spare(mine) : SPARE;
    if (i == SPARE) {
        cancel(memory, tx);
        return !it->has_written;
    }
    for (unsigned reg = 0; reg < REGISTERS; reg++)
        STORE(mine->spare[i]->words[reg], it->writes[reg] ? it->written[reg] : LOAD(it->root->words[reg], relaxed), relaxed);
    return replace(mine, i, it->root);
}

BENCH_OF(sizeof(struct protected), begin, read, write, commit, cancel)
