/*
Each function of bench-c/instrumented/waits.c by itself: what it asks of the steps, of the model of C++20 and of the C library, in that order,
and what it returns. A line each: beside a run; and in one where nothing is held, where others hold it for a while, where nobody else runs, and
where the C library fails.
*/
#include "../../bench-c/instrumented/waits.c"
#include "check.h"
#include <stdarg.h>

enum { THREAD = 5, OTHER = 7 };
enum mode { BESIDE, FREE, HELD, ALONE, FAILS, MODES };
static _Alignas(64) char objects[2][64]; /* what is locked or made, and a condition */
static char model;
static enum mode mode;
static unsigned tries, waited;
static bool makes, nests;

static char name_of(const volatile void *at)
{
    return at == objects[0] ? 'a' : at == objects[1] ? 'b' : at == &critical ? 'c' : at == &indivisible ? 'i' : '?';
}

/* The bench. */
bool tmwatch_step_is_run(void)
{
    return mode != BESIDE;
}
void tmwatch_step_at(const void *caller, unsigned pauses)
{
    printf(" step%s %u", caller ? "" : "?", pauses);
}
void tmwatch_step_drain(void)
{
    printf(" drain");
}
unsigned tmwatch_thread(void)
{
    return THREAD;
}
void tmwatch_pause(void)
{
    printf(" pause");
}
tmwatch_simulation *tmwatch_step_orders(void)
{
    return mode != BESIDE ? (tmwatch_simulation *)&model : NULL;
}
enum tmwatch_step_waited tmwatch_step_wait(const volatile void *lock, bool is_for_signal)
{
    printf(" wait-%c%s", name_of(lock), is_for_signal ? "-signal" : "");
    unsigned at = waited++;
    return mode == ALONE || at == 3 ? TMWATCH_STEP_ALONE : mode == FREE || at == 1 ? TMWATCH_STEP_FREED : TMWATCH_STEP_OTHERS;
}
void tmwatch_step_free(const volatile void *lock, bool is_for_one)
{
    printf(" free-%c%s", name_of(lock), is_for_one ? "-one" : "");
}
void tmwatch_orders_locked(tmwatch_simulation *orders, unsigned thread, const volatile void *lock, bool is_shared)
{
    CHECK((char *)orders == &model && thread == THREAD);
    printf(" locked-%c%s", name_of(lock), is_shared ? "-shared" : "");
}
void tmwatch_orders_unlocks(tmwatch_simulation *orders, unsigned thread, const volatile void *lock)
{
    CHECK((char *)orders == &model && thread == THREAD);
    printf(" unlocks-%c", name_of(lock));
}
void tmwatch_orders_futex(tmwatch_simulation *orders, const volatile void *word, const void *caller)
{
    CHECK((char *)orders == &model && caller && name_of(caller) == '?');
    printf(" futex-%c", name_of(word));
}

/* The C library, whose calls that try fail by each status that says that it is held. */
static int real(const char *name, const volatile void *at, bool has_time)
{
    static const int statuses[] = {EBUSY, thrd_busy, -1, 0};
    printf(" %s-%c%s", name, name_of(at), has_time ? "-time" : "");
    errno = mode == FAILS ? EINVAL : EAGAIN;
    if (mode == BESIDE || mode == FAILS)
        return mode == FAILS ? -1 : OTHER;
    return !strstr(name, "try") || mode == FREE ? 0 : mode == ALONE ? EBUSY : statuses[tries++ % 4];
}
static const struct timespec time_given;
#define TAKE(X, prefix, how, type)                                                            \
    X(prefix##_##how, type, (type * it), it, false, (void *)objects[0])                       \
    X(prefix##_try##how, type, (type * it), it, false, (void *)objects[0])                    \
    X(prefix##_timed##how, type, (type * it, UNTIL), it, until == &time_given, (void *)objects[0], &time_given) \
    X(prefix##_clock##how, type, (type * it, clockid_t clock, UNTIL), it, clock == OTHER && until == &time_given, (void *)objects[0], OTHER, \
      &time_given)
#define ALONE_ON(X, name, type) X(name, type, (type * it), it, false, (void *)objects[0])
#define WAIT_ON(X, name, first, second, more, has_time, given) \
    X(name, first, (first * it, second * lock more), it, lock == (void *)objects[0] && has_time, (void *)objects[1], (void *)objects[0] given)
#define COMMA ,
#define EACH(X)                                                                           \
    TAKE(X, pthread_mutex, lock, pthread_mutex_t)                                         \
    ALONE_ON(X, pthread_mutex_unlock, pthread_mutex_t)                                    \
    ALONE_ON(X, pthread_spin_lock, pthread_spinlock_t)                                    \
    ALONE_ON(X, pthread_spin_trylock, pthread_spinlock_t)                                 \
    ALONE_ON(X, pthread_spin_unlock, pthread_spinlock_t)                                  \
    TAKE(X, pthread_rwlock, rdlock, pthread_rwlock_t)                                     \
    TAKE(X, pthread_rwlock, wrlock, pthread_rwlock_t)                                     \
    ALONE_ON(X, pthread_rwlock_unlock, pthread_rwlock_t)                                  \
    TAKE(X, sem, wait, sem_t)                                                             \
    ALONE_ON(X, sem_post, sem_t)                                                          \
    ALONE_ON(X, mtx_lock, mtx_t)                                                          \
    ALONE_ON(X, mtx_trylock, mtx_t)                                                       \
    X(mtx_timedlock, mtx_t, (mtx_t * it, UNTIL), it, until == &time_given, (void *)objects[0], &time_given) \
    ALONE_ON(X, mtx_unlock, mtx_t)                                                        \
    ALONE_ON(X, pthread_cond_signal, pthread_cond_t)                                      \
    ALONE_ON(X, pthread_cond_broadcast, pthread_cond_t)                                   \
    ALONE_ON(X, cnd_signal, cnd_t)                                                        \
    ALONE_ON(X, cnd_broadcast, cnd_t)                                                     \
    ALONE_ON(X, pthread_barrier_wait, pthread_barrier_t)                                  \
    ALONE_ON(X, __cxa_guard_acquire, uint64_t)                                            \
    WAIT_ON(X, pthread_cond_wait, pthread_cond_t, pthread_mutex_t, , true, )              \
    WAIT_ON(X, pthread_cond_timedwait, pthread_cond_t, pthread_mutex_t, COMMA UNTIL, until == &time_given, COMMA &time_given)  \
    WAIT_ON(X, pthread_cond_clockwait, pthread_cond_t, pthread_mutex_t, COMMA clockid_t clock COMMA UNTIL, \
            clock == OTHER && until == &time_given, COMMA OTHER COMMA &time_given)        \
    WAIT_ON(X, cnd_wait, cnd_t, mtx_t, , true, )                                          \
    WAIT_ON(X, cnd_timedwait, cnd_t, mtx_t, COMMA UNTIL, until == &time_given, COMMA &time_given)
#define REAL(name, type, parameters, at, has_time, ...) \
    int __real_##name parameters { return real(#name, at, has_time); }
EACH(REAL)
#define REAL_VOID(name, type) \
    void __real_##name(type *it) { real(#name, it, false); }
REAL_VOID(_ZNSt18condition_variable10notify_oneEv, pthread_cond_t)
REAL_VOID(_ZNSt18condition_variable10notify_allEv, pthread_cond_t)
REAL_VOID(__cxa_guard_release, uint64_t)
REAL_VOID(__cxa_guard_abort, uint64_t)
void __real__ZNSt18condition_variable4waitERSt11unique_lockISt5mutexE(pthread_cond_t *it, pthread_mutex_t **lock)
{
    real("wait", it, *lock == (void *)objects[0]);
}
/* OpenMP's, whose tries return more than 0 if they succeed. */
#define REAL_TEST(name, unused) \
    int __real_##name(void *it) { int status = real(#name "(try)", it, false); return status == 0 ? THREAD : status == OTHER ? OTHER : 0; }
#define EACH_TEST(X) X(omp_test_lock, ) X(omp_test_nest_lock, )
EACH_TEST(REAL_TEST)
#define REAL_SECTION(name, at, ...) \
    void __real_##name(__VA_ARGS__) { real(#name, at, false); }
#define EACH_SECTION(X)                                                                   \
    X(omp_set_lock, it, void *it)                                                         \
    X(omp_set_nest_lock, it, void *it)                                                    \
    X(omp_unset_lock, it, void *it)                                                       \
    X(omp_unset_nest_lock, it, void *it)                                                  \
    X(GOMP_critical_name_start, it, void **it)                                            \
    X(GOMP_critical_name_end, it, void **it)
EACH_SECTION(REAL_SECTION)
REAL_SECTION(GOMP_critical_start, &critical, void)
REAL_SECTION(GOMP_critical_end, &critical, void)
REAL_SECTION(GOMP_atomic_start, &indivisible, void)
REAL_SECTION(GOMP_atomic_end, &indivisible, void)
REAL_SECTION(__kmpc_critical, at == objects[1] && thread == OTHER ? it : NULL, void *at, int thread, void *it)
REAL_SECTION(__kmpc_end_critical, at == objects[1] && thread == OTHER ? it : NULL, void *at, int thread, void *it)
void __tsan_atomic8_store(volatile uint8_t *at, uint8_t value, int order)
{
    printf(" store-%c %d o%d", name_of(at), value, order);
}

/* A routine that is made once; while it is, another comes that needs it, too. */
static void make(void)
{
    printf(" make");
    if (nests) {
        nests = false;
        objects[0][0] = mode != FREE;
        printf(" (");
        __wrap_pthread_once((pthread_once_t *)objects[0], make);
        printf(" )");
    }
}
#define REAL_ONCE(type, name, control, returns)             \
    type __real_##name(control *it, void (*routine_of)(void)) \
    {                                                         \
        real(#name, it, false);                               \
        if (makes)                                            \
            routine_of();                                     \
        returns;                                              \
    }
REAL_ONCE(int, pthread_once, pthread_once_t, return OTHER)
REAL_ONCE(void, call_once, once_flag, )
#define REAL_SLEEP(name, has_time, ...) \
    int __real_##name(__VA_ARGS__) { return real(#name, objects[0], has_time); }
#define SLEEP const struct timespec *time, struct timespec *left
REAL_SLEEP(sched_yield, false, void)
void __real_thrd_yield(void)
{
    real("thrd_yield", objects[0], false);
}
REAL_SLEEP(nanosleep, time == &time_given && !left, SLEEP)
REAL_SLEEP(thrd_sleep, time == &time_given && !left, SLEEP)
REAL_SLEEP(clock_nanosleep, time == &time_given && !left && clock == OTHER && flags == THREAD, clockid_t clock, int flags, SLEEP)
REAL_SLEEP(usleep, microseconds == OTHER, useconds_t microseconds)
long __real_syscall(long number, ...)
{
    va_list words;
    va_start(words, number);
    printf(" call %s %c", number == SYS_futex ? "futex" : "", name_of(va_arg(words, void *)));
    for (int i = 0; i < 5; i++)
        printf(" %ld", va_arg(words, long));
    va_end(words);
    return OTHER;
}

#define EACH_CALL(X)                                                                                                              \
    X(read) X(readv) X(recv) X(recvfrom) X(recvmsg) X(__read_chk) X(__recv_chk) X(eventfd_read) X(write) X(writev) X(send) X(sendto) \
    X(sendmsg) X(eventfd_write) X(poll) X(ppoll) X(__poll_chk) X(select) X(pselect) X(epoll_wait)
#define REAL_CALL(name)                                                                     \
    long __real_##name(long first, long second, long third, long fourth, long fifth, long sixth) \
    {                                                                                       \
        CHECK(first == 1 && second == 2 && third == 3 && fourth == 4 && fifth == 5);        \
        printf(" " #name);                                                                  \
        return sixth;                                                                       \
    }
EACH_CALL(REAL_CALL)

/* A line of a function, in each mode. */
#define IN_MODES(name, ...)                                  \
    do {                                                     \
        printf(#name ":");                                   \
        for (mode = BESIDE; mode < MODES; mode++) {          \
            tries = waited = 0;                              \
            objects[0][0] = 0;                               \
            __VA_ARGS__;                                     \
            printf(mode + 1 < MODES ? " |" : "\n");           \
        }                                                    \
    } while (0)
#define TELL(name, type, parameters, at, has_time, ...) \
    IN_MODES(name, int status = __wrap_##name(__VA_ARGS__); printf(status == -1 ? " = errno %d" : " = %d", status == -1 ? errno : status));
#define TELL_VOID(name, ...) IN_MODES(name, __wrap_##name(__VA_ARGS__))

int main(void)
{
    static const int many[MOST_MADE + 2];
    pthread_mutex_t *lock = (void *)objects[0];
    EACH(TELL)
    IN_MODES(__cxa_guard_acquire, begin_making(objects[0]); objects[0][0] = mode != FREE;
             printf(" = %d", __wrap___cxa_guard_acquire((void *)objects[0])));
    CHECK(*find_made(objects[0]) == objects[0]);
    TELL_VOID(_ZNSt18condition_variable10notify_oneEv, (void *)objects[1]);
    TELL_VOID(_ZNSt18condition_variable10notify_allEv, (void *)objects[1]);
    TELL_VOID(_ZNSt18condition_variable4waitERSt11unique_lockISt5mutexE, (void *)objects[1], &lock);
    TELL_VOID(__cxa_guard_release, (void *)objects[0]);
    CHECK(*find_made(objects[0]) != objects[0]);
    TELL_VOID(__cxa_guard_abort, (void *)objects[0]);
#define TELL_SECTION(name, ...) TELL_VOID(name, (void *)objects[0]);
    EACH_SECTION(TELL_SECTION)
#define TELL_TEST(name, unused) TELL(name, , , , , (void *)objects[0])
    EACH_TEST(TELL_TEST)
    IN_MODES(GOMP_critical_start, __wrap_GOMP_critical_start());
    IN_MODES(GOMP_critical_end, __wrap_GOMP_critical_end());
    IN_MODES(GOMP_atomic_start, __wrap_GOMP_atomic_start());
    IN_MODES(GOMP_atomic_end, __wrap_GOMP_atomic_end());
    TELL_VOID(__kmpc_critical, objects[1], OTHER, objects[0]);
    CHECK(*find_made(objects[0]) == objects[0]);
    IN_MODES(__kmpc_critical, objects[0][0] = mode != FREE; __wrap___kmpc_critical(objects[1], OTHER, objects[0]));
    TELL_VOID(__kmpc_end_critical, objects[1], OTHER, objects[0]);
    CHECK(*find_made(objects[0]) != objects[0]);
    for (int i = 0; i < 4; i++) {
        makes = i == 1 || i == 2;
        IN_MODES(pthread_once, nests = i == 2; printf(" = %d", __wrap_pthread_once((void *)objects[0], make)));
        TELL_VOID(call_once, (void *)objects[0], make);
    }
    IN_MODES(sched_yield, printf(" = %d", __wrap_sched_yield()));
    IN_MODES(thrd_yield, __wrap_thrd_yield());
    IN_MODES(nanosleep, printf(" = %d", __wrap_nanosleep(&time_given, NULL)));
    IN_MODES(thrd_sleep, printf(" = %d", __wrap_thrd_sleep(&time_given, NULL)));
    IN_MODES(clock_nanosleep, printf(" = %d", __wrap_clock_nanosleep(OTHER, THREAD, &time_given, NULL)));
    IN_MODES(usleep, printf(" = %d", __wrap_usleep(OTHER)));
    static const long calls[][2] = {{SYS_futex, FUTEX_WAIT}, {SYS_futex, FUTEX_WAIT_BITSET_PRIVATE}, {SYS_futex, FUTEX_WAKE}, {SYS_gettid, FUTEX_WAIT}};
    for (int i = 0; i < 4; i++)
        IN_MODES(syscall, printf(" = %ld", __wrap_syscall(calls[i][0], (long)objects[0], calls[i][1], 3, 4, 5, 6)));
#define TELL_CALL(name) IN_MODES(name, printf(" = %ld", __wrap_##name(1, 2, 3, 4, 5, OTHER)));
    EACH_CALL(TELL_CALL)
    IN_MODES(tmwatch_lock_tried, printf(" = %d", tmwatch_lock_tried()));
    IN_MODES(tmwatch_lock_awaited, printf(" = %d", tmwatch_lock_awaited(objects[0])));
    IN_MODES(tmwatch_lock_taken, tmwatch_lock_taken(objects[0]));
    IN_MODES(tmwatch_lock_returning, tmwatch_lock_returning(objects[0]));
    IN_MODES(tmwatch_lock_returned, tmwatch_lock_returned(objects[0]));
    for (int i = 0; i < MOST_MADE + 2; i++)
        begin_making(&many[i]);
    for (int i = 0; i < MOST_MADE; i++)
        CHECK(*find_made(&many[i]) == &many[i]);
    CHECK(find_made(&many[MOST_MADE + 1]) == &made_now[MOST_MADE]);
    CHECK(!tmwatch_step_unwrapped());
    return 0;
}
