/*
Runs rounds of transactions on a memory under GCC's interface of transactional memory, and writes the trace of the run.

    run PLACING ROUNDS SEED

PLACING is where events are recorded: right, or in one of three wrong places.
*/
#include "tmwatch/rounds.h"
#include "attempts.h"
#include <string.h>

enum placing { RIGHT, LATE_REQUEST, EARLY_COMMIT, NO_ABORT };

static const char *const placings[] = {"right", "late-request", "early-commit", "no-abort", NULL};

/* How far a thread's attempt is: its number, its next step, and its last event, or 0. */
struct progress {
    unsigned attempt;
    int step;
    char last;
    bool is_given_up;
};

static enum placing placing;
static struct progress progress[THREADS];
static atomic_ulong restarts;
struct word words[REGISTERS];

/* The interface's: calls the function where the transaction that runs is rolled back. */
void _ITM_addUserUndoAction(void (*function)(void *), void *argument);

static void note(struct worker *worker, char kind, unsigned reg, uint64_t value)
{
    record(worker->thread, kind, reg, value);
    progress[worker->thread].last = kind;
}

/* Where the attempt was rolled back: records that it has aborted, and then the first call of the next, before the memory begins it. */
static void roll_back(void *argument)
{
    struct worker *worker = argument;
    struct progress *at = &progress[worker->thread];
    bool is_asked = at->last == 'X', is_retried = !is_asked && at->attempt + 1 < ATTEMPTS;
    if (placing == LATE_REQUEST && (at->last == 'V' || at->last == 'K'))
        note(worker, 'T', 0, 0);
    if (at->last != 'C' && !(is_retried && placing == NO_ABORT))
        note(worker, 'A', 0, 0);
    at->is_given_up = !is_retried;
    atomic_fetch_add(&restarts, !is_asked);
    if (is_retried) {
        at->attempt++;
        note(worker, 'R', worker->steps[0].reg, 0);
    }
}

void start(struct worker *worker)
{
    progress[worker->thread] = (struct progress){0};
    note(worker, 'R', worker->steps[0].reg, 0);
}

bool begin_attempt(struct worker *worker)
{
    struct progress *at = &progress[worker->thread];
    if (at->is_given_up)
        return false;
    at->step = 0;
    _ITM_addUserUndoAction(roll_back, worker);
    return true;
}

int ask_read(struct worker *worker)
{
    struct progress *at = &progress[worker->thread];
    if (at->step == STEPS)
        return -1;
    if (at->step > 0)
        note(worker, 'R', worker->steps[at->step].reg, 0);
    pause_sometimes(worker);
    return (int)worker->steps[at->step].reg;
}

bool answer_read(struct worker *worker, uint64_t value)
{
    struct progress *at = &progress[worker->thread];
    pause_sometimes(worker);
    note(worker, 'V', 0, value);
    return worker->steps[at->step++].writes;
}

uint64_t ask_write(struct worker *worker)
{
    struct progress *at = &progress[worker->thread];
    uint64_t value = fresh_value(worker, at->attempt);
    note(worker, 'W', worker->steps[at->step - 1].reg, value);
    pause_sometimes(worker);
    return value;
}

void answer_write(struct worker *worker)
{
    pause_sometimes(worker);
    note(worker, 'K', 0, 0);
}

bool ask_end(struct worker *worker)
{
    if (worker->aborts || placing != LATE_REQUEST)
        note(worker, worker->aborts ? 'X' : 'T', 0, 0);
    if (!worker->aborts && placing == EARLY_COMMIT)
        note(worker, 'C', 0, 0);
    pause_sometimes(worker);
    return worker->aborts;
}

void answer_end(struct worker *worker)
{
    struct progress *at = &progress[worker->thread];
    pause_sometimes(worker);
    if (at->is_given_up || at->last == 'C')
        return;
    if (at->last != 'T')
        note(worker, 'T', 0, 0);
    note(worker, 'C', 0, 0);
}

static void make_transaction(struct worker *worker)
{
    run_transaction(worker);
}

/* The place of the word in the list. */
static int place_of(const char *word, const char *const *list)
{
    for (int i = 0; list[i]; i++)
        if (strcmp(list[i], word) == 0)
            return i;
    fprintf(stderr, "run: %s is unknown\n", word);
    exit(2);
}

int main(int count, char **arguments)
{
    if (count != 4) {
        fputs("run PLACING ROUNDS SEED\n", stderr);
        return 2;
    }
    placing = place_of(arguments[1], placings);
    rounds = strtoull(arguments[2], NULL, 10);
    seed = strtoull(arguments[3], NULL, 10);
    run_rounds();
    fprintf(stderr, "%lu attempts were rolled back\n", restarts);
    return fflush(stdout) == 0 ? 0 : 1;
}
