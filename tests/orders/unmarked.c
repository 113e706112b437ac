/*
A right memory of one lock on the bench, part of which the compiler does not mark: so --orders c++ does not see what that orders, and says
so. By -DKIND=STORES the lock is given back by a plain store of inline assembly; by -DKIND=FUTEX it is taken so too, by an instruction that
locks, and who meets it waits as a mutex of Rust's standard library does.
*/
#include "memories/ordered.h"
#include <linux/futex.h>
#include <sys/syscall.h>

long syscall(long number, ...);

enum { STORES, FUTEX };
static atomic_uint lock;
static _Atomic uint64_t words[REGISTERS];

static unsigned exchange_unmarked(void)
{
    unsigned was = 1;
    if (KIND == FUTEX)
        __asm__ volatile("xchgl %0, %1" : "+r"(was), "+m"(lock) : : "memory");
    return was;
}

static bool begin(void *memory UNUSED, void *tx)
{
    if (KIND == STORES)
        while (atomic_exchange(&lock, 1) == 1)
            ;
    else
        while (exchange_unmarked() == 1)
            syscall(SYS_futex, &lock, FUTEX_WAIT_PRIVATE, 1, NULL);
    *(struct tx *)tx = (struct tx){0};
    return true;
}

static bool commit(void *memory UNUSED, void *tx UNUSED)
{
    __asm__ volatile("movl $0, %0" : "=m"(lock) : : "memory");
    if (KIND == FUTEX)
        syscall(SYS_futex, &lock, FUTEX_WAKE_PRIVATE, 1);
    return true;
}

static void cancel(void *memory, void *tx)
{
    struct tx *it = tx;
    for (unsigned reg = 0; reg < REGISTERS; reg++)
        if (it->writes[reg])
            STORE(words[reg], it->before[reg], relaxed);
    commit(memory, tx);
}

static bool read(void *memory UNUSED, void *tx UNUSED, unsigned reg, uint64_t *value)
{
    *value = LOAD(words[reg], relaxed);
    return true;
}

static bool write(void *memory UNUSED, void *tx, unsigned reg, uint64_t value)
{
    struct tx *it = tx;
    if (!it->writes[reg])
        it->before[reg] = LOAD(words[reg], relaxed);
    it->writes[reg] = true;
    STORE(words[reg], value, relaxed);
    return true;
}

BENCH(begin, read, write, commit, cancel)
