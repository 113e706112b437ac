/*
Runs rounds of transactions on the little memory, and writes the trace of the run.

    little FAULT PLACING ROUNDS SEED

FAULT is the part that is left out of the memory: none, reads, commit or place. PLACING is where events are recorded: right, or in one of
six wrong places.
*/
#include "tmwatch/memory.h"
#include "tmwatch/rounds.h"
#include <string.h>

enum placing { RIGHT, LATE_CALL, LATE_REQUEST, EARLY_COMMIT, AT_END, LATE_ABORT, NO_ABORT };

static const char *const faults[] = {"none", "reads", "commit", "place", NULL};
static const char *const placings[] = {"right", "late-call", "late-request", "early-commit", "at-end", "late-abort", "no-abort", NULL};

static enum placing placing;
static _Atomic uint64_t registers[REGISTERS];

/* The thread's events that a wrong placing holds back. */
static _Thread_local struct event held[4 * STEPS + 2];
static _Thread_local int holds;

/* Records the event, behind those that were held back, or holds it back too. */
static void note(const struct worker *worker, struct event event, bool now)
{
    held[holds++] = event;
    for (int i = 0; now && i < holds; i++)
        record(worker->thread, held[i].kind, held[i].reg, held[i].value);
    holds = now ? 0 : holds;
}

/* Before the memory is asked. */
static void call(struct worker *worker, char kind, unsigned reg, uint64_t value)
{
    bool is_late = placing == AT_END || (placing == LATE_CALL && kind == 'R') || (placing == LATE_REQUEST && kind == 'T');
    note(worker, (struct event){.kind = kind, .reg = (uint8_t)reg, .value = value}, !is_late);
    pause_sometimes(worker);
}

/* After the memory has answered. */
static void answer(struct worker *worker, char kind, uint64_t value)
{
    pause_sometimes(worker);
    note(worker, (struct event){.kind = kind, .value = value}, placing != AT_END || kind == 'C' || kind == 'A');
}

/* Makes the calls of the transaction's steps: false where the memory aborts it. */
static bool make_steps(struct worker *worker, struct tx *tx, unsigned attempt)
{
    for (int i = 0; i < STEPS; i++) {
        const struct step *step = &worker->steps[i];
        uint64_t value, fresh = fresh_value(worker, attempt);
        call(worker, 'R', step->reg, 0);
        if (i == 0 && attempt > 0 && placing == LATE_ABORT)
            answer(worker, 'A', 0);
        if (i == 0)
            memory_begin(tx);
        if (!memory_read(tx, &registers[step->reg], &value))
            return false;
        answer(worker, 'V', value);
        if (!step->writes)
            continue;
        call(worker, 'W', step->reg, fresh);
        if (!memory_write(tx, &registers[step->reg], fresh))
            return false;
        answer(worker, 'K', 0);
    }
    return true;
}

/* An attempt: whether no other has to be made. */
static bool make_attempt(struct worker *worker, unsigned attempt)
{
    struct tx tx = {0};
    bool has_ended = false;
    if (make_steps(worker, &tx, attempt)) {
        call(worker, worker->aborts ? 'X' : 'T', 0, 0);
        has_ended = !worker->aborts && placing == EARLY_COMMIT;
        if (has_ended)
            answer(worker, 'C', 0);
        if (!worker->aborts && memory_commit(&tx)) {
            if (!has_ended)
                answer(worker, 'C', 0);
            return true;
        }
    }
    memory_undo(&tx);
    bool is_retried = !worker->aborts && attempt + 1 < ATTEMPTS;
    bool is_left_out = is_retried && (placing == LATE_ABORT || placing == NO_ABORT);
    if (!is_left_out && !has_ended)
        answer(worker, 'A', 0);
    return !is_retried;
}

static void make_transaction(struct worker *worker)
{
    for (unsigned attempt = 0; !make_attempt(worker, attempt); attempt++)
        ;
}

/* The place of the word in the list. */
static int place_of(const char *word, const char *const *list)
{
    for (int i = 0; list[i]; i++)
        if (strcmp(list[i], word) == 0)
            return i;
    fprintf(stderr, "little: %s is unknown\n", word);
    exit(2);
}

int main(int count, char **words)
{
    if (count != 5) {
        fputs("little FAULT PLACING ROUNDS SEED\n", stderr);
        return 2;
    }
    fault = place_of(words[1], faults);
    placing = place_of(words[2], placings);
    rounds = strtoull(words[3], NULL, 10);
    seed = strtoull(words[4], NULL, 10);
    run_rounds();
    return fflush(stdout) == 0 ? 0 : 1;
}
