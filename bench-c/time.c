/* Waiting: naps and semaphores; and what a clock has counted. */

/* How long who waits for the judge, or it for events, lets others run: microseconds. Events of a memory that asks outside come slowly. */
enum { REST = 50, LONG_REST = 1000 };

/* The C library's, also in a program that wraps them. */
extern int __real_nanosleep(const struct timespec *time, struct timespec *left) __attribute__((weak));
extern int __real_sem_wait(sem_t *semaphore) __attribute__((weak));
extern int __real_sem_post(sem_t *semaphore) __attribute__((weak));

static void nap(long microseconds)
{
    struct timespec time = {0, microseconds * 1000};
    (__real_nanosleep ? __real_nanosleep : nanosleep)(&time, NULL);
}

static void await(sem_t *semaphore)
{
    while ((__real_sem_wait ? __real_sem_wait : sem_wait)(semaphore) != 0)
        ;
}

static void post(sem_t *semaphore)
{
    (__real_sem_post ? __real_sem_post : sem_post)(semaphore);
}

static uint64_t microseconds_of(clockid_t clock)
{
    struct timespec time = {0, 0};
    clock_gettime(clock, &time);
    return (uint64_t)time.tv_sec * 1000000 + (uint64_t)time.tv_nsec / 1000;
}
