/* The cost of recording an event with include/tmwatch/recorder.h: nanoseconds, with one thread and with four, the median of 51 measurements. */
#include "tmwatch/recorder.h"
#include <pthread.h>
#include <time.h>

enum { THREADS = 4, TIMES = 51 };

static pthread_barrier_t barrier;
static unsigned workers;

static void *record_many(void *argument)
{
    unsigned thread = (unsigned)(uintptr_t)argument;
    pthread_barrier_wait(&barrier);
    for (unsigned i = 0; i < ROOM / workers; i++)
        record(thread, 'V', 0, i);
    pthread_barrier_wait(&barrier);
    return NULL;
}

static double now(void)
{
    struct timespec time;
    clock_gettime(CLOCK_MONOTONIC, &time);
    return (double)time.tv_sec * 1e9 + (double)time.tv_nsec;
}

/* The nanoseconds of an event, where this many threads share the events that there is room for. */
static double measure(void)
{
    pthread_t threads[THREADS];
    pthread_barrier_init(&barrier, NULL, workers);
    for (unsigned i = 1; i < workers; i++)
        if (pthread_create(&threads[i], NULL, record_many, (void *)(uintptr_t)i) != 0)
            abort();
    double began = now();
    record_many(NULL);
    double taken = now() - began;
    for (unsigned i = 1; i < workers; i++)
        pthread_join(threads[i], NULL);
    recorded = 0;
    return taken / ROOM;
}

static int compare(const void *left, const void *right)
{
    double difference = *(const double *)left - *(const double *)right;
    return (difference > 0) - (difference < 0);
}

int main(void)
{
    for (workers = 1; workers <= THREADS; workers += THREADS - 1) {
        double taken[TIMES];
        for (int i = 0; i < TIMES; i++)
            taken[i] = measure();
        qsort(taken, TIMES, sizeof taken[0], compare);
        printf("C     %u %8.1f %4zu\n", workers, taken[TIMES / 2], sizeof(struct event));
    }
}
