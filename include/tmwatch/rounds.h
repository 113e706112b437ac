/*
A workload of rounds. In a round, each thread makes at most ATTEMPTS attempts of one list of steps. After each WAIT_EVERY rounds all threads
meet at a barrier, where no transaction is open. In the trace, each attempt is a transaction of its own, so by default at most
THREADS * ATTEMPTS = 8 transactions are between two barriers.
*/
#ifndef ROUNDS_H
#define ROUNDS_H

#include "tmwatch/recorder.h"
#include <pthread.h>
#include <sched.h>
#include <stdbool.h>

#ifndef ATTEMPTS
#define ATTEMPTS 2
#endif

/* The threads meet at a barrier after each WAIT_EVERY rounds. */
#ifndef WAIT_EVERY
#define WAIT_EVERY 1
#endif

/* Numbers of threads, of registers, and of steps in a transaction. */
#ifndef THREADS
#define THREADS 4
#endif
#ifndef REGISTERS
#define REGISTERS 3
#endif
#ifndef STEPS
#define STEPS 3
#endif

/* A step reads the register, and then writes it if `writes` is set. */
struct step {
    unsigned reg;
    bool writes;
};

/* A thread and its transaction of this round: the steps, and whether it requests an abort or a commit after them. */
struct worker {
    unsigned thread;
    uint64_t draws, round;
    struct step steps[STEPS];
    bool aborts;
};

static uint64_t rounds, seed;
static pthread_barrier_t barrier;

/* Makes the worker's transaction of this round. The program that includes this header defines it. */
static void make_transaction(struct worker *worker);

/* Returns a random number below `below` (Steele, Lea and Flood, OOPSLA 2014). */
static inline unsigned draw(struct worker *worker, unsigned below)
{
    uint64_t word = worker->draws += 0x9E3779B97F4A7C15;
    word = (word ^ word >> 30) * 0xBF58476D1CE4E5B9;
    word = (word ^ word >> 27) * 0x94D049BB133111EB;
    return (word ^ word >> 31) % below;
}

/* Waits a little in one of two calls, and yields in one of 64, so that transactions overlap even on few processors. */
static inline void pause_sometimes(struct worker *worker)
{
    for (volatile unsigned turns = draw(worker, 2) * draw(worker, 100); turns > 0; turns--)
        ;
    if (draw(worker, 64) == 0)
        sched_yield();
}

/* Returns the value that the worker's attempt writes. No other attempt of the run writes it. */
static inline uint64_t fresh_value(const struct worker *worker, unsigned attempt)
{
    return (worker->round * THREADS + worker->thread) * ATTEMPTS + attempt + 1;
}

/* Waits for all threads. Then thread 0 writes the recorded events, while no thread records. */
static inline void wait_for_all(const struct worker *worker)
{
    pthread_barrier_wait(&barrier);
    if (worker->thread == 0)
        write_events();
    pthread_barrier_wait(&barrier);
}

static inline void draw_transaction(struct worker *worker)
{
    for (int i = 0; i < STEPS; i++)
        worker->steps[i] = (struct step){draw(worker, REGISTERS), draw(worker, 2) == 0};
    worker->aborts = draw(worker, 8) == 0;
}

static inline void *work(void *argument)
{
    struct worker *worker = argument;
    for (worker->round = 0; worker->round < rounds; worker->round++) {
        draw_transaction(worker);
        if (worker->round % WAIT_EVERY == 0)
            wait_for_all(worker);
        make_transaction(worker);
    }
    wait_for_all(worker);
    return NULL;
}

static inline void run_rounds(void)
{
    pthread_t threads[THREADS];
    static struct worker workers[THREADS];
    write_header(REGISTERS);
    pthread_barrier_init(&barrier, NULL, THREADS);
    for (unsigned i = 0; i < THREADS; i++) {
        workers[i] = (struct worker){.thread = i, .draws = seed * THREADS + i};
        if (pthread_create(&threads[i], NULL, work, &workers[i]) != 0)
            abort();
    }
    for (unsigned i = 0; i < THREADS; i++)
        pthread_join(threads[i], NULL);
}

#endif
