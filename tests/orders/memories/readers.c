/*
TLRW's visible readers (Dice and Shavit, SPAA 2010) with the weakest orders that are right in C11: a reader raises its flag and looks at the
lock; a writer locks and looks at the flags. Each has a fence between.

WRONG: 1 no fence of the reader; 2 its look at the lock is relaxed; 3 no fence of the writer; 4 its look at the flags is relaxed; 5 unlocked
relaxed; 6 a flag is lowered relaxed. 4 and 6 take loads that are delayed past later stores. By -DDEPENDS a lowered flag has what was read:
then C++20 lets no load be delayed past that either, unless values come out of thin air. By -DTELLS the first transaction of a process tells,
on both streams, whether that has a child; by -DTELLS=2 threads race once 6,000 transactions have begun; by -DTELLS=3 the memory asks elsewhere;
by -DTELLS=4 threads race in other processes than the first; and by -DTELLS=5 signals come all the time.
*/
#define _XOPEN_SOURCE 700
#include "ordered.h"
#include <signal.h>
#include <stdio.h>
#include <sys/time.h>
#include <sys/wait.h>

#ifdef DEPENDS
#define LOWERED(value) ((value) & ~UINT64_C(1))
#else
#define LOWERED(value) ((void)(value), 0)
#endif

struct word {
    _Atomic uint64_t value;
    atomic_bool is_locked;
    _Atomic uint64_t flags[MOST_THREADS]; /* odd: the thread reads */
};

static struct word words[REGISTERS];

#ifdef TELLS
/* (nothing of this is simulated) */
#define UNSEEN __attribute__((no_sanitize("thread")))
static pid_t first;
pid_t getpid(void);

UNSEEN static void note(int signal UNUSED)
{
}

__attribute__((constructor)) UNSEEN static void start(void)
{
    const struct itimerval often = {{0, 1000}, {0, 1000}};
    first = getpid();
    sigaction(SIGALRM, &(struct sigaction){.sa_handler = note}, NULL);
    if (TELLS == 5)
        setitimer(ITIMER_REAL, &often, NULL);
}

UNSEEN static bool tell(void)
{
    static unsigned begun;
    const char *told = waitpid(-1, NULL, WNOHANG) == 0 ? "with a child" : "without a child";
    for (int stream = 1; begun == 0 && stream <= 2; stream++)
        dprintf(stream, "begins %s\n", told);
    begun++;
    return TELLS == 2 ? begun > 6000 : TELLS == 4 && getpid() != first;
}
#endif

static bool begin(void *memory UNUSED, void *tx)
{
#ifdef TELLS
    static uint64_t raced;
    if (tell())
        raced++;
    if (TELLS == 3)
        tmwatch_external_call();
#endif
    *(struct tx *)tx = (struct tx){0};
    return true;
}

static bool commit(void *memory UNUSED, void *tx)
{
    struct tx *it = tx;
    for (unsigned reg = 0; reg < REGISTERS; reg++) {
        if (it->holds[reg])
            STORE(words[reg].is_locked, false, ORDER(5, release, relaxed));
        if (it->has_read[reg])
            STORE(words[reg].flags[tmwatch_thread()], LOWERED(it->read[reg]), ORDER(6, release, relaxed));
    }
    return true;
}

static void cancel(void *memory, void *tx)
{
    struct tx *it = tx;
    for (unsigned reg = 0; reg < REGISTERS; reg++)
        if (it->writes[reg])
            STORE(words[reg].value, it->before[reg], relaxed);
    commit(memory, tx);
}

static bool undo_unless(bool is_done, void *tx)
{
    if (!is_done)
        cancel(NULL, tx);
    return is_done;
}

static bool raise_flag(struct tx *tx, unsigned reg)
{
    if (tx->has_read[reg] || tx->holds[reg])
        return true;
    tx->has_read[reg] = true;
    STORE(words[reg].flags[tmwatch_thread()], 1, relaxed);
    FENCE(1, seq_cst);
    return !LOAD(words[reg].is_locked, ORDER(2, acquire, relaxed));
}

static bool read(void *memory UNUSED, void *tx, unsigned reg, uint64_t *value)
{
    if (!undo_unless(raise_flag(tx, reg), tx))
        return false;
    *value = ((struct tx *)tx)->read[reg] = LOAD(words[reg].value, relaxed);
    return true;
}

static bool has_readers(unsigned reg)
{
    for (unsigned i = 0; i < MOST_THREADS; i++)
        if (i != tmwatch_thread() && LOAD(words[reg].flags[i], ORDER(4, acquire, relaxed)) % 2 == 1)
            return true;
    return false;
}

static bool take_lock(struct tx *tx, unsigned reg)
{
    if (tx->holds[reg])
        return true;
    if (atomic_exchange_explicit(&words[reg].is_locked, true, memory_order_acquire))
        return false;
    tx->holds[reg] = true;
    FENCE(3, seq_cst);
    return !has_readers(reg);
}

static bool write(void *memory UNUSED, void *tx, unsigned reg, uint64_t value)
{
    struct tx *it = tx;
    if (!undo_unless(take_lock(it, reg), tx))
        return false;
    if (!it->writes[reg])
        it->before[reg] = LOAD(words[reg].value, relaxed);
    it->writes[reg] = true;
    STORE(words[reg].value, value, relaxed);
    return true;
}

BENCH(begin, read, write, commit, cancel)
