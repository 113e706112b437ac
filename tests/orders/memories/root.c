/*
One root of a snapshot that nobody changes: a transaction reads what the root has led to at its beginning, and a commit puts a changed copy
there (read-copy-update: McKenney and Slingwine, PDCS 1998).

WRONG: 1 the root is loaded relaxed: Arm and POWER order the loads that depend on it, C++20 does not; 2 the copy is published relaxed.
*/
#include "ordered.h"

enum { COPIES = 512 };

struct copy {
    _Atomic uint64_t words[REGISTERS];
};

struct rooted {
    struct copy *root;
    bool has_written, writes[REGISTERS];
    uint64_t written[REGISTERS];
};

/* Each thread's copies, of which it uses one after another: those that a round uses are far fewer. */
static struct copy copies[MOST_THREADS][COPIES], first;
static unsigned used[MOST_THREADS];
static _Atomic(struct copy *) root = &first;

static bool begin(void *memory UNUSED, void *tx)
{
    *(struct rooted *)tx = (struct rooted){.root = LOAD(root, ORDER(1, acquire, relaxed))};
    return true;
}

static bool read(void *memory UNUSED, void *tx, unsigned reg, uint64_t *value)
{
    struct rooted *it = tx;
    *value = it->writes[reg] ? it->written[reg] : LOAD(it->root->words[reg], relaxed);
    return true;
}

static bool write(void *memory UNUSED, void *tx, unsigned reg, uint64_t value)
{
    struct rooted *it = tx;
    it->has_written = it->writes[reg] = true;
    it->written[reg] = value;
    return true;
}

static bool commit(void *memory UNUSED, void *tx)
{
    struct rooted *it = tx;
    struct copy *held = it->root, *copy = &copies[tmwatch_thread()][used[tmwatch_thread()]++ % COPIES];
    if (!it->has_written)
        return true;
    for (unsigned reg = 0; reg < REGISTERS; reg++)
        STORE(copy->words[reg], it->writes[reg] ? it->written[reg] : LOAD(held->words[reg], relaxed), relaxed);
    return SWAP(root, &held, copy, ORDER(2, release, relaxed));
}

BENCH_OF(sizeof(struct rooted), begin, read, write, commit, forget)
