/*
One lock over all, held from the first call to the end; the words are relaxed. -DLOCK: TICKET, MCS (Mellor-Crummey and Scott, TOCS 1991),
BAKERY (Lamport, CACM 1974), MUTEX (of pthread). By -DPLAIN the words are plain; by
-DHEAP each is a block of the heap, and another one after each write.

WRONG: ticket: 1 the wait is relaxed, 2 the unlock. MCS: 3 the wait is relaxed, 4 the hand-over, 5 the unlock without a successor, 6 taking a
free lock, 12 the link to the next. Bakery: 7 the number is stored by release and without a fence, 9 the unlock is relaxed, 10 the choice is
ended relaxed, 11 no fence after it has begun; 8 numbers are loaded by acquire, which is right.
*/
#include "ordered.h"
#include <pthread.h>
#include <stdlib.h>

enum lock { TICKET, MCS, BAKERY, MUTEX };
#ifdef PLAIN
static uint64_t words[REGISTERS];
#define LOAD_WORD(reg) words[reg]
#define STORE_WORD(reg, value) words[reg] = value
#elif defined HEAP
static uint64_t *words[REGISTERS];

static void put(unsigned reg, uint64_t value)
{
    free(words[reg]);
    words[reg] = malloc(sizeof *words[reg]);
    if (words[reg])
        *words[reg] = value;
}

#define LOAD_WORD(reg) (words[reg] ? *words[reg] : 0)
#define STORE_WORD(reg, value) put(reg, value)
#else
static _Atomic uint64_t words[REGISTERS];
#define LOAD_WORD(reg) LOAD(words[reg], relaxed)
#define STORE_WORD(reg, value) STORE(words[reg], value, relaxed)
#endif

static _Atomic uint64_t next, serving;

static void take_ticket(void)
{
    uint64_t mine = atomic_fetch_add_explicit(&next, 1, relaxed);
    while (LOAD(serving, ORDER(1, acquire, relaxed)) != mine)
        ;
}

static void give_ticket(void)
{
    STORE(serving, LOAD(serving, relaxed) + 1, ORDER(2, release, relaxed));
}

static struct node {
    _Atomic(struct node *) next;
    atomic_bool waits;
} nodes[MOST_THREADS];
static _Atomic(struct node *) tail;

static void take_mcs(void)
{
    struct node *mine = &nodes[tmwatch_thread()];
    STORE(mine->next, NULL, relaxed);
    STORE(mine->waits, true, relaxed);
    struct node *before = atomic_exchange_explicit(&tail, mine, ORDER(6, acq_rel, release));
    if (!before)
        return;
    STORE(before->next, mine, ORDER(12, release, relaxed));
    while (LOAD(mine->waits, ORDER(3, acquire, relaxed)))
        ;
}

static void give_mcs(void)
{
    struct node *mine = &nodes[tmwatch_thread()], *after = LOAD(mine->next, memory_order_acquire), *held = mine;
    if (!after && SWAP(tail, &held, NULL, ORDER(5, release, relaxed)))
        return;
    while (!after)
        after = LOAD(mine->next, memory_order_acquire);
    STORE(after->waits, false, ORDER(4, release, relaxed));
}

static atomic_bool chooses[MOST_THREADS];
static _Atomic uint64_t number[MOST_THREADS];

static void take_bakery(void)
{
    unsigned mine = tmwatch_thread();
    uint64_t most = 0, its;
    STORE(chooses[mine], true, relaxed);
    FENCE(11, seq_cst);
    for (unsigned i = 0; i < MOST_THREADS; i++)
        if ((its = LOAD(number[i], ORDER(8, seq_cst, acquire))) > most)
            most = its;
    STORE(number[mine], most + 1, ORDER(7, seq_cst, release));
    STORE(chooses[mine], false, ORDER(10, release, relaxed));
    if (WRONG != 7)
        atomic_thread_fence(memory_order_seq_cst);
    for (unsigned i = 0; i < MOST_THREADS; i++) {
        while (LOAD(chooses[i], memory_order_acquire))
            ;
        while ((its = LOAD(number[i], ORDER(8, seq_cst, acquire))) != 0 && (its < most + 1 || (its == most + 1 && i < mine)))
            ;
    }
}

static void give_bakery(void)
{
    STORE(number[tmwatch_thread()], 0, ORDER(9, release, relaxed));
}

static pthread_mutex_t mutex = PTHREAD_MUTEX_INITIALIZER;

static bool begin(void *memory UNUSED, void *tx)
{
    if (LOCK == MUTEX)
        pthread_mutex_lock(&mutex);
    else
        (LOCK == TICKET ? take_ticket : LOCK == MCS ? take_mcs : take_bakery)();
    *(struct tx *)tx = (struct tx){0};
    return true;
}

static bool commit(void *memory UNUSED, void *tx UNUSED)
{
    if (LOCK == MUTEX)
        pthread_mutex_unlock(&mutex);
    else
        (LOCK == TICKET ? give_ticket : LOCK == MCS ? give_mcs : give_bakery)();
    return true;
}

static void cancel(void *memory, void *tx)
{
    struct tx *it = tx;
    for (unsigned reg = 0; reg < REGISTERS; reg++)
        if (it->writes[reg])
            STORE_WORD(reg, it->before[reg]);
    commit(memory, tx);
}

static bool read(void *memory UNUSED, void *tx UNUSED, unsigned reg, uint64_t *value)
{
    *value = LOAD_WORD(reg);
    return true;
}

static bool write(void *memory UNUSED, void *tx, unsigned reg, uint64_t value)
{
    struct tx *it = tx;
    if (!it->writes[reg])
        it->before[reg] = LOAD_WORD(reg);
    it->writes[reg] = true;
    STORE_WORD(reg, value);
    return true;
}

BENCH(begin, read, write, commit, cancel)
