/* A client of tmwatch-bench in C or C++ (docs/LINES.md). The program defines the five functions below, opens the store with 0 in each register,
   and calls serve_store. A client has a thread for each thread of the bench. Without --single-process, there are as many clients, and each
   receives the calls of one thread of the bench. */
#pragma once
#include <inttypes.h>
#include <pthread.h>
#include <semaphore.h>
#include <stdbool.h>
#include <stdio.h>
#include <unistd.h>

enum { THREADS = 8, REGISTERS = 8, MOST_CALL = 64 };

/* The first four return false if the store refuses the transaction. After store_begin returns false, nothing is open. After another one does,
   store_abort is called, to roll the transaction back. It is also called if an open transaction requests an abort, or adds: adds (--add) are
   not supported, so each is answered with an abort. */
static bool store_begin(unsigned thread);
static bool store_read(unsigned thread, unsigned reg, uint64_t *value);
static bool store_write(unsigned thread, unsigned reg, uint64_t value);
static bool store_commit(unsigned thread);
static void store_abort(unsigned thread);

/* Ends the program because the store failed, which is not a refusal. */
static inline void fail(const char *what, const char *why)
{
    fprintf(stderr, "%s: %s\n", what, why);
    _exit(1);
}

static sem_t called[THREADS];
static char calls[THREADS][MOST_CALL];

/* Answers the calls of a thread. The first call of a transaction begins it. */
static inline void *serve(void *own)
{
    unsigned thread = (unsigned)(((char *)own - calls[0]) / MOST_CALL), reg = 0;
    for (bool is_open = false; sem_wait(&called[thread]) == 0;) {
        char letter = calls[thread][1], answer[MOST_CALL] = "A";
        uint64_t value = 0;
        sscanf(calls[thread] + 2, "%u %" SCNu64, &reg, &value);
        is_open = is_open || (letter != 'X' && store_begin(thread));
        if (is_open && letter == 'R' && store_read(thread, reg, &value))
            snprintf(answer, sizeof answer, "V %" PRIu64, value);
        else if (is_open && ((letter == 'W' && store_write(thread, reg, value)) || (letter == 'T' && store_commit(thread))))
            answer[0] = letter == 'W' ? 'K' : 'C';
        else if (is_open)
            store_abort(thread);
        is_open = answer[0] == 'V' || answer[0] == 'K';
        dprintf(STDOUT_FILENO, "%u %s\n", thread, answer);
    }
    return NULL;
}

static inline void serve_store(void)
{
    pthread_t thread;
    for (unsigned i = 0; i < THREADS; i++)
        if (sem_init(&called[i], 0, 0) != 0 || pthread_create(&thread, NULL, serve, calls[i]) != 0)
            fail("thread", "refused");
    for (int i; (i = getchar() - '0') >= 0 && i < THREADS && fgets(calls[i], MOST_CALL, stdin);)
        sem_post(&called[i]);
    _exit(0);
}
