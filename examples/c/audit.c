/*
Money that the transactions of a little memory move, an auditor who adds it up, and a watch over them: a program that records by hand.

    audit ROUNDS [broken]

Two tellers move money from one account to another, and an auditor adds all accounts up. A broken memory doesn't look whether what a
transaction has read is still there. In the first round all money moves between two readings of the auditor, so that a broken memory is
always violated. The exit status is the number of the verdict, as that of `tmwatch judge`.
*/
#define _POSIX_C_SOURCE 200809L
#include "tmwatch.h"
#include <pthread.h>
#include <sched.h>
#include <stdatomic.h>
#include <stdio.h>
#include <stdlib.h>
#include <string.h>

/* In a round each thread makes at most two attempts, so that at most six transactions lie between two moments at which none is live. */
enum { ACCOUNTS = 4, THREADS = 3, AUDITOR = 2, ATTEMPTS = 2, START = 100 };

static _Atomic uint64_t accounts[ACCOUNTS] = {START, START, START, START};
/* Odd while a commit stores. */
static _Atomic uint64_t version;
static bool is_broken;

static unsigned long rounds;
static pthread_barrier_t barrier;
static atomic_int ended;
static atomic_ulong wrong_sums;

struct tx {
    tmwatch_recorder *recorder;
    bool has_begun;
    uint64_t version;
    int writes, account[ACCOUNTS];
    uint64_t value[ACCOUNTS];
};

/* Whether an event has to be recorded again, since there was no room for it. This memory holds no lock then, so that it may wait. */
static bool is_full(uint32_t status)
{
    if (status != TMWATCH_OK && status != TMWATCH_FULL) {
        fprintf(stderr, "audit: an event was answered %u\n", (unsigned)status);
        exit(4);
    }
    if (status == TMWATCH_FULL)
        sched_yield();
    return status == TMWATCH_FULL;
}

#define RECORD(call)      \
    while (is_full(call)) \
    continue

static bool abort_tx(struct tx *tx)
{
    RECORD(tmwatch_aborted(tx->recorder));
    return false;
}

/* False where the transaction has to abort, as with the other calls. */
static bool read_account(struct tx *tx, int account, uint64_t *value)
{
    RECORD(tmwatch_read(tx->recorder, (uint64_t)account));
    if (!tx->has_begun)
        while ((tx->version = version) % 2 == 1)
            sched_yield();
    tx->has_begun = true;
    *value = accounts[account];
    if (!is_broken && version != tx->version)
        return abort_tx(tx);
    RECORD(tmwatch_value(tx->recorder, *value));
    return true;
}

/* A transaction writes an account once, after all its reads. */
static void write_account(struct tx *tx, int account, uint64_t value)
{
    RECORD(tmwatch_write(tx->recorder, (uint64_t)account, value));
    tx->account[tx->writes] = account;
    tx->value[tx->writes++] = value;
    RECORD(tmwatch_written(tx->recorder));
}

static bool commit(struct tx *tx)
{
    RECORD(tmwatch_commit(tx->recorder));
    if (tx->writes > 0) {
        uint64_t expected = tx->version;
        if (!atomic_compare_exchange_strong(&version, &expected, tx->version + 1))
            return abort_tx(tx);
        for (int i = 0; i < tx->writes; i++)
            accounts[tx->account[i]] = tx->value[i];
        version = tx->version + 2;
    }
    RECORD(tmwatch_committed(tx->recorder));
    return true;
}

/* Moves one from an account to another, where there is one. */
static bool move(struct tx *tx, int from, int to)
{
    uint64_t has, gets;
    if (!read_account(tx, from, &has) || !read_account(tx, to, &gets))
        return false;
    if (has > 0) {
        write_account(tx, from, has - 1);
        write_account(tx, to, gets + 1);
    }
    return commit(tx);
}

/* If it waits, the tellers move their money between its first two readings. */
static bool audit(struct tx *tx, bool waits)
{
    uint64_t sum = 0, value;
    for (int account = 0; account < ACCOUNTS; account++) {
        if (!read_account(tx, account, &value))
            return false;
        sum += value;
        sched_yield();
        if (waits && account == 0) {
            pthread_barrier_wait(&barrier);
            pthread_barrier_wait(&barrier);
        }
    }
    if (!commit(tx))
        return false;
    wrong_sums += sum != ACCOUNTS * START;
    return true;
}

static tmwatch watch;
static tmwatch_recorder recorders[THREADS];

static void *work(void *recorder)
{
    int thread = (int)((tmwatch_recorder *)recorder - recorders);
    for (unsigned long round = 0; round < rounds; round++) {
        int from = (int)(round + (unsigned long)thread) % ACCOUNTS, to = (from + 1 + (int)(round / 4 % 3)) % ACCOUNTS;
        bool has_committed = false, moves_in_audit = round == 0 && thread != AUDITOR;
        pthread_barrier_wait(&barrier);
        if (moves_in_audit)
            pthread_barrier_wait(&barrier);
        for (int attempt = 0; attempt < ATTEMPTS && !has_committed; attempt++) {
            struct tx tx = {.recorder = recorder};
            has_committed = thread == AUDITOR ? audit(&tx, round == 0 && attempt == 0) : move(&tx, from, to);
        }
        if (moves_in_audit)
            pthread_barrier_wait(&barrier);
    }
    ended++;
    return NULL;
}

/* Has judged what the threads record, until they have ended and nothing is left. Where memory is refused, the next call goes on. */
static void judge(void)
{
    uint64_t judged;
    bool all_ended;
    do {
        all_ended = ended == THREADS;
        judged = 0;
        tmwatch_pump(&watch, 1024, &judged);
        if (judged == 0)
            sched_yield();
    } while (!all_ended || judged > 0);
}

int main(int count, char **words)
{
    static const char *const verdicts[] = {"opaque so far", "violated", "undecided", "malformed"};
    tmwatch_settings settings = TMWATCH_SETTINGS(ACCOUNTS);
    tmwatch_result result;
    tmwatch_counts counts;
    pthread_t threads[THREADS];
    rounds = count > 1 ? strtoul(words[1], NULL, 10) : 1000;
    is_broken = count > 2 && strcmp(words[2], "broken") == 0;
    for (int account = 0; account < ACCOUNTS; account++)
        settings.start[account] = START;
    if (tmwatch_open(&watch, recorders, THREADS, &settings) != TMWATCH_OK || pthread_barrier_init(&barrier, NULL, THREADS) != 0)
        return 4;
    for (int i = 0; i < THREADS; i++)
        if (pthread_create(&threads[i], NULL, work, &recorders[i]) != 0)
            return 4;
    judge();
    for (int i = 0; i < THREADS; i++)
        pthread_join(threads[i], NULL);
    if (tmwatch_summary(&watch, &counts) != TMWATCH_OK || tmwatch_close(&watch, recorders, THREADS, &result) != TMWATCH_OK)
        return 4;
    printf("%s at %llu of %llu events; %llu of %llu transactions overlapped; %lu wrong audits\n", verdicts[result.verdict],
           (unsigned long long)result.at, (unsigned long long)result.events, (unsigned long long)counts.concurrent,
           (unsigned long long)counts.transactions, (unsigned long)wrong_sums);
    return (int)result.verdict;
}
