/* Waiting with the schedule `steps`: for a lock, a condition, what another thread makes once, a barrier, a time, a yield, and a futex, as Rust's
   locks do. Without these functions only the watchdog sees that a thread waits. A program calls them in place of the C library's if it is linked
   with -Wl,--wrap= and the names of packaging/wrapped.txt. Each is a step, and all delayed stores come out before. */
#define _GNU_SOURCE
#include "step.h"
#include <errno.h>
#include <fnmatch.h>
#include <link.h>
#include <linux/futex.h>
#include <pthread.h>
#include <semaphore.h>
#include <string.h>
#include <sys/syscall.h>
#include <threads.h>
#include <unistd.h>

/* How many pauses a yield counts as; and a sleep, after which another thread always goes on. */
enum { YIELD_PAUSES = 16, SLEEP_PAUSES = 256 };

/* A function that the linker wraps. The C library's is null in a program that is linked without the name. */
#define WRAPPED(type, name, ...)                           \
    __attribute__((weak)) type __real_##name(__VA_ARGS__); \
    type __wrap_##name(__VA_ARGS__)

/* Before each call: whether the thread goes by steps. */
TMWATCH_PART bool is_stepped(void)
{
    bool is_run = tmwatch_step_is_run();
    if (is_run)
        tmwatch_step_at(TMWATCH_CALLER, 1);
    if (tmwatch_step_drain)
        tmwatch_step_drain();
    return is_run;
}

/* Whether another holds what was tried, by the status of pthread or C11; a semaphore says it by errno. */
static bool is_held(int status)
{
    return status == EBUSY || status == thrd_busy || (status == -1 && errno == EAGAIN);
}

/* A lock was tried or taken, by this status. */
static int has_locked(int status, const volatile void *lock, bool is_shared)
{
    tmwatch_simulation *orders = tmwatch_step_orders();
    if (status == 0 && orders)
        tmwatch_orders_locked(orders, tmwatch_thread(), lock, is_shared);
    return status;
}

void tmwatch_lock_returning(const volatile void *lock)
{
    tmwatch_simulation *orders = tmwatch_step_orders();
    if (orders)
        tmwatch_orders_unlocks(orders, tmwatch_thread(), lock);
}

/* A function that does this by steps, and else what the C library does. */
#define STEPPED(type, returns, name, given, by_steps, ...) \
    WRAPPED(type, name, __VA_ARGS__)                       \
    {                                                      \
        if (is_stepped())                                  \
            returns by_steps;                              \
        else                                               \
            returns __real_##name given;                   \
    }
/* A lock or a semaphore is tried, or taken. By steps a thread tries until it is free, or no other thread is able to run: a time is over then,
   with the status that says so, and without one that is left to the C library. */
#define LOCK(name, try_name, lock_type, is_shared)                                      \
    WRAPPED(int, try_name, lock_type *lock)                                             \
    {                                                                                   \
        is_stepped();                                                                   \
        return has_locked(__real_##try_name(lock), lock, is_shared);                    \
    }                                                                                   \
    __attribute__((weak)) int __real_##name(lock_type *lock);                           \
    static int name##_by_steps(lock_type *lock, int over)                               \
    {                                                                                   \
        int status;                                                                     \
        while (is_held(status = __real_##try_name(lock)) && tmwatch_lock_awaited(lock)) \
            ;                                                                           \
        if (is_held(status))                                                            \
            status = over ? (errno = ETIMEDOUT, over) : __real_##name(lock);            \
        return has_locked(status, lock, is_shared);                                     \
    }                                                                                   \
    STEPPED(int, return, name, (lock), name##_by_steps(lock, 0), lock_type * lock)
#define UNTIL const struct timespec *until
#define TIMED(name, lock_name, lock_type, over) \
    STEPPED(int, return, name, (lock, until), lock_name##_by_steps(lock, over), lock_type * lock, UNTIL)
#define CLOCKED(name, lock_name, lock_type, over) \
    STEPPED(int, return, name, (lock, clock, until), lock_name##_by_steps(lock, over), lock_type * lock, clockid_t clock, UNTIL)
/* It is given back: those that wait for it are able to run then. */
#define UNLOCK(name, lock_type)                 \
    WRAPPED(int, name, lock_type *lock)         \
    {                                           \
        bool is_run = is_stepped();             \
        tmwatch_lock_returning(lock);           \
        int status = __real_##name(lock);       \
        if (is_run) {                           \
            tmwatch_step_free(lock, false);     \
            tmwatch_step_at(TMWATCH_CALLER, 1); \
        }                                       \
        return status;                          \
    }
/* A lock that is tried, taken, or taken within a time by one of two clocks, by functions of such names. */
#define LOCKS(prefix, how, lock_type, is_shared, over)            \
    LOCK(prefix##_##how, prefix##_try##how, lock_type, is_shared) \
    TIMED(prefix##_timed##how, prefix##_##how, lock_type, over)   \
    CLOCKED(prefix##_clock##how, prefix##_##how, lock_type, over)
LOCKS(pthread_mutex, lock, pthread_mutex_t, false, ETIMEDOUT)
UNLOCK(pthread_mutex_unlock, pthread_mutex_t)
LOCK(pthread_spin_lock, pthread_spin_trylock, pthread_spinlock_t, false)
UNLOCK(pthread_spin_unlock, pthread_spinlock_t)
LOCKS(pthread_rwlock, rdlock, pthread_rwlock_t, true, ETIMEDOUT)
LOCKS(pthread_rwlock, wrlock, pthread_rwlock_t, false, ETIMEDOUT)
UNLOCK(pthread_rwlock_unlock, pthread_rwlock_t)
LOCKS(sem, wait, sem_t, false, -1)
UNLOCK(sem_post, sem_t)
LOCK(mtx_lock, mtx_trylock, mtx_t, false)
TIMED(mtx_timedlock, mtx_lock, mtx_t, thrd_timedout)
UNLOCK(mtx_unlock, mtx_t)

/* For a lock of another language: it is tried (whether by steps), others run until it may be free (whether to try again), it was taken. */
bool tmwatch_lock_tried(void)
{
    return is_stepped();
}

bool tmwatch_lock_awaited(const volatile void *lock)
{
    return tmwatch_step_wait(lock, false) != TMWATCH_STEP_ALONE;
}

void tmwatch_lock_taken(const volatile void *lock)
{
    has_locked(0, lock, false);
}

void tmwatch_lock_returned(const volatile void *lock)
{
    if (!tmwatch_step_is_run())
        return;
    tmwatch_step_free(lock, false);
    tmwatch_pause();
}

/* Waits for a condition, maybe within a time, and then with the status that says that it is over. Nobody else runs between the unlocking and
   the wait, which returns after a signal, or where nobody is left to send one but a thread that isn't the bench's. */
#define AWAITED(name, mutex_type, lock, unlock)                                            \
    static int name(const void *condition, mutex_type *mutex, int over)                    \
    {                                                                                      \
        tmwatch_lock_returning(mutex);                                                     \
        __real_##unlock(mutex);                                                            \
        tmwatch_step_free(mutex, false);                                                   \
        bool is_signalled = tmwatch_step_wait(condition, over == 0) == TMWATCH_STEP_FREED; \
        __wrap_##lock(mutex);                                                              \
        return is_signalled ? 0 : over;                                                    \
    }
AWAITED(await_signal, pthread_mutex_t, pthread_mutex_lock, pthread_mutex_unlock)
AWAITED(await_signal_c11, mtx_t, mtx_lock, mtx_unlock)
#define WAITER pthread_cond_t *condition, pthread_mutex_t *mutex
#define WAITER_C11 cnd_t *restrict condition, mtx_t *restrict mutex
STEPPED(int, return, pthread_cond_wait, (condition, mutex), await_signal(condition, mutex, 0), WAITER)
STEPPED(int, return, pthread_cond_timedwait, (condition, mutex, until), await_signal(condition, mutex, ETIMEDOUT), WAITER, UNTIL)
STEPPED(int, return, pthread_cond_clockwait, (condition, mutex, clock, until), await_signal(condition, mutex, ETIMEDOUT), WAITER,
        clockid_t clock, UNTIL)
STEPPED(int, return, cnd_wait, (condition, mutex), await_signal_c11(condition, mutex, 0), WAITER_C11)
STEPPED(int, return, cnd_timedwait, (condition, mutex, until), await_signal_c11(condition, mutex, thrd_timedout), WAITER_C11, UNTIL)
/* The condition variables of libstdc++, in its shared library: each begins with one of C's, and a lock with a pointer to its mutex. */
STEPPED(void, , _ZNSt18condition_variable4waitERSt11unique_lockISt5mutexE, (condition, lock), await_signal(condition, *lock, 0),
        pthread_cond_t *condition, pthread_mutex_t **lock)

/* A signal to one that waits, or to all. Those that wait untracked get it too. */
#define SIGNAL(type, returns, name, condition_type, is_to_one) \
    WRAPPED(type, name, condition_type *condition)             \
    {                                                          \
        if (is_stepped())                                      \
            tmwatch_step_free(condition, is_to_one);           \
        returns __real_##name(condition);                      \
    }
SIGNAL(int, return, pthread_cond_signal, pthread_cond_t, true)
SIGNAL(int, return, pthread_cond_broadcast, pthread_cond_t, false)
SIGNAL(int, return, cnd_signal, cnd_t, true)
SIGNAL(int, return, cnd_broadcast, cnd_t, false)
SIGNAL(void, , _ZNSt18condition_variable10notify_oneEv, pthread_cond_t, true)
SIGNAL(void, , _ZNSt18condition_variable10notify_allEv, pthread_cond_t, false)

/* What is being made once: others wait meanwhile, and acquire what was made. One thread runs at a time, so that nothing guards the table. What
   finds no room there shares the last place, and may be waited for untracked. What has thrown leaves its place, and its control at 0. */
enum { MOST_MADE = 16 };
static const void *made_now[MOST_MADE + 1];

static const void **find_made(const void *it)
{
    unsigned i = 0;
    while (i < MOST_MADE && made_now[i] != it)
        i++;
    return &made_now[i];
}

static void begin_making(const void *it)
{
    while (*find_made(it) == it && *(const volatile int *)it != 0 && tmwatch_step_wait(it, false))
        ;
    *find_made(*find_made(it) == it ? it : NULL) = it;
}

/* It is made: by this thread, or before. */
static void end_making(const void *it, bool is_own)
{
    *find_made(it) = NULL;
    has_locked(0, it, !is_own);
    if (is_own)
        tmwatch_lock_returning(it);
    tmwatch_step_free(it, false);
}

/* The routine, and whether it has run. */
static _Thread_local void (*routine)(void);
static _Thread_local bool has_run;
static void run_routine(void)
{
    routine();
    has_run = true;
}
#define ONCE(type, name, control_type, result)                     \
    WRAPPED(type, name, control_type *control, void (*make)(void)) \
    {                                                              \
        bool is_run = is_stepped();                                \
        if (is_run)                                                \
            begin_making(control);                                 \
        routine = make;                                            \
        has_run = false;                                           \
        __real_##name(control, run_routine);                       \
        if (is_run)                                                \
            end_making(control, has_run);                          \
        return result;                                             \
    }
ONCE(int, pthread_once, pthread_once_t, 0)
ONCE(void, call_once, once_flag, )

/* A static variable of C++. Its guard's first byte is loaded by marked code, and stored by the library unmarked. */
extern void __tsan_atomic8_store(volatile uint8_t *at, uint8_t value, int order) __attribute__((weak));
WRAPPED(int, __cxa_guard_acquire, uint64_t *guard)
{
    if (!is_stepped())
        return __real___cxa_guard_acquire(guard);
    begin_making(guard);
    int is_own = __real___cxa_guard_acquire(guard);
    if (!is_own)
        end_making(guard, false);
    return is_own;
}
#define LEAVE(name, at, given, is_marked, ...)                                 \
    WRAPPED(void, name, __VA_ARGS__)                                           \
    {                                                                          \
        bool is_run = is_stepped();                                            \
        if (is_run && is_marked && __tsan_atomic8_store)                       \
            __tsan_atomic8_store((volatile uint8_t *)at, 1, __ATOMIC_RELEASE); \
        __real_##name given;                                                   \
        if (is_run) {                                                          \
            end_making(at, true);                                              \
            tmwatch_step_at(TMWATCH_CALLER, 1);                                \
        }                                                                      \
    }
LEAVE(__cxa_guard_release, guard, (guard), true, uint64_t *guard)
LEAVE(__cxa_guard_abort, guard, (guard), false, uint64_t *guard)

/* OpenMP's critical sections, as GCC and Clang call them, can't be tried: others wait as for what is made once. The try of an OpenMP lock
   returns how often the thread has it then, or 0. */
#define SECTION(start, end, at, given, ...) \
    WRAPPED(void, start, __VA_ARGS__)       \
    {                                       \
        if (is_stepped())                   \
            begin_making(at);               \
        __real_##start given;               \
        has_locked(0, at, false);           \
    }                                       \
    LEAVE(end, at, given, false, __VA_ARGS__)
#define OPENMP_LOCK(name, test_name, unset_name)        \
    WRAPPED(int, test_name, void *lock)                 \
    {                                                   \
        is_stepped();                                   \
        int times = __real_##test_name(lock);           \
        has_locked(times > 0 ? 0 : EBUSY, lock, false); \
        return times;                                   \
    }                                                   \
    WRAPPED(void, name, void *lock)                     \
    {                                                   \
        bool tries = is_stepped();                      \
        while (tries && __real_##test_name(lock) <= 0)  \
            tries = tmwatch_lock_awaited(lock);         \
        if (!tries)                                     \
            __real_##name(lock);                        \
        has_locked(0, lock, false);                     \
    }                                                   \
    LEAVE(unset_name, lock, (lock), false, void *lock)
static int critical = 1, indivisible = 1;
OPENMP_LOCK(omp_set_lock, omp_test_lock, omp_unset_lock)
OPENMP_LOCK(omp_set_nest_lock, omp_test_nest_lock, omp_unset_nest_lock)
SECTION(GOMP_critical_start, GOMP_critical_end, &critical, (), void)
SECTION(GOMP_critical_name_start, GOMP_critical_name_end, name, (name), void **name)
SECTION(GOMP_atomic_start, GOMP_atomic_end, &indivisible, (), void)
SECTION(__kmpc_critical, __kmpc_end_critical, name, (at, thread, name), void *at, int thread, void *name)

/* A barrier orders all that meet there. The C library waits: a thread of the memory's own has to come, or no transaction would end alone. */
WRAPPED(int, pthread_barrier_wait, pthread_barrier_t *barrier)
{
    is_stepped();
    tmwatch_lock_returning(barrier);
    int status = __real_pthread_barrier_wait(barrier);
    has_locked(0, barrier, false);
    return status;
}

/* A yield, or a sleep, which takes no time by steps. */
#define YIELD(type, returns, name, pauses, result, given, ...) \
    WRAPPED(type, name, __VA_ARGS__)                           \
    {                                                          \
        if (!tmwatch_step_is_run())                            \
            returns __real_##name given;                       \
        else                                                   \
            tmwatch_step_at(TMWATCH_CALLER, pauses);           \
        returns result;                                        \
    }
YIELD(int, return, sched_yield, YIELD_PAUSES, 0, (), void)
YIELD(void, , thrd_yield, YIELD_PAUSES, , (), void)
YIELD(int, return, nanosleep, SLEEP_PAUSES, 0, (time, left), const struct timespec *time, struct timespec *left)
YIELD(int, return, clock_nanosleep, SLEEP_PAUSES, 0, (clock, flags, time, left), clockid_t clock, int flags, const struct timespec *time,
      struct timespec *left)
YIELD(int, return, usleep, SLEEP_PAUSES, 0, (microseconds), useconds_t microseconds)
YIELD(int, return, thrd_sleep, SLEEP_PAUSES, 0, (time, left), const struct timespec *time, struct timespec *left)

/* A wait for a futex returns at once, as it always may, after a yield. Each other call is made. This takes six words, as the C library. */
__attribute__((weak)) long __real_syscall(long number, ...);
long __wrap_syscall(long number, long first, long what, long third, long fourth, long fifth, long sixth)
{
    long command = what & FUTEX_CMD_MASK;
    if (tmwatch_step_drain)
        tmwatch_step_drain();
    tmwatch_simulation *orders = tmwatch_step_orders();
    if (number == SYS_futex && orders)
        tmwatch_orders_futex(orders, (const volatile void *)first, __builtin_return_address(0));
    if (number != SYS_futex || (command != FUTEX_WAIT && command != FUTEX_WAIT_BITSET) || !tmwatch_step_is_run())
        return __real_syscall(number, first, what, third, fourth, fifth, sixth);
    tmwatch_step_at(TMWATCH_CALLER, YIELD_PAUSES);
    return 0;
}

/* Calls by which threads may wait for each other, or wake each other, untracked: no steps, but what the thread has stored is out before. Each
   passes six words on, so that a program's own function of such a name gets what it is given. */
#define CALL(name)                                                                               \
    __attribute__((weak)) long __real_##name(long, long, long, long, long, long);                \
    long __wrap_##name(long first, long second, long third, long fourth, long fifth, long sixth) \
    {                                                                                            \
        if (tmwatch_step_drain)                                                                  \
            tmwatch_step_drain();                                                                \
        return __real_##name(first, second, third, fourth, fifth, sixth);                        \
    } /* clang-format off */
CALL(read) CALL(readv) CALL(recv) CALL(recvfrom) CALL(recvmsg) CALL(__read_chk) CALL(__recv_chk) CALL(eventfd_read)
CALL(write) CALL(writev) CALL(send) CALL(sendto) CALL(sendmsg) CALL(eventfd_write)
CALL(poll) CALL(ppoll) CALL(__poll_chk) CALL(select) CALL(pselect) CALL(epoll_wait)

/* What links the program, or the library that has the bench in it, as it is loaded. (This file's own symbols are weak.) */
extern ElfW(Dyn) _DYNAMIC[] __attribute__((weak)); /* clang-format on */

const char *tmwatch_step_unwrapped(void)
{
    static const char locks[] =
        "@(pthread_@(mutex_|spin_|rwlock_|cond_|once|barrier_)|mtx_|cnd_|call_once|sem_t|__cxa_guard_|omp_*lock|GOMP_critical|"
        "GOMP_atomic|__kmpc_critical)*";
    static const unsigned char tables[][2] = {{DT_RELA, DT_RELASZ}, {DT_JMPREL, DT_PLTRELSZ}};
    ElfW(Addr) at[DT_NUM] = {0};
    for (const ElfW(Dyn) *it = _DYNAMIC; it && it->d_tag != DT_NULL; it++)
        at[it->d_tag < DT_NUM ? it->d_tag : DT_NULL] = it->d_un.d_ptr;
    for (unsigned i = 0; i < 2 && !__real_pthread_mutex_lock; i++)
        for (const ElfW(Rela) *it = (const void *)at[tables[i][0]], *end = it + at[tables[i][1]] / sizeof *it; it < end; it++) {
            const ElfW(Sym) *symbol = (const ElfW(Sym) *)at[DT_SYMTAB] + ELF64_R_SYM(it->r_info);
            const char *name = (const char *)at[DT_STRTAB] + symbol->st_name;
            if (symbol->st_info >> 4 == STB_GLOBAL && symbol->st_shndx == SHN_UNDEF && fnmatch(locks, name, FNM_EXTMATCH) == 0)
                return name;
        }
    return NULL;
}
