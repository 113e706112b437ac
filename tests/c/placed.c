/*
Where each placing of examples/recorders/little.c records the events of six transactions: a line each, of events by their letters, with register
and value. The memory is one that marks its own calls by small letters, and refuses those that it is told to.
*/
#define MEMORY_H
#define main little
#include "tmwatch/rounds.h"

enum { THREAD = 2, MARKS = 7 };
/* By what a thread's state of draws is how many it has made: those of its pauses here. */
#define DRAWS_EACH UINT64_C(0xF1DE83E19937733D)
struct tx {
    bool has_begun;
};
static int fault;
static uint64_t refused; /* (a bit for each call that may be) */
static unsigned calls;

static bool mark(const struct tx *tx, char kind, uint64_t value)
{
    record(tx->has_begun ? MARKS : THREAD, kind, 0, value);
    return (refused >> calls++ & 1) == 0;
}
static void memory_begin(struct tx *tx)
{
    tx->has_begun = true;
    record(MARKS, 'b', 0, 0);
}
static bool memory_read(const struct tx *tx, _Atomic uint64_t *from, uint64_t *value)
{
    *value = *from + calls;
    return mark(tx, 'r', 0);
}
static bool memory_write(const struct tx *tx, _Atomic uint64_t *to, uint64_t value)
{
    *to = 100 * value;
    return mark(tx, 'w', value);
}
static bool memory_commit(const struct tx *tx)
{
    return mark(tx, 'c', 0);
}
static void memory_undo(const struct tx *tx)
{
    record(tx->has_begun ? MARKS : THREAD, 'u', 0, 0);
}
#include "../../examples/recorders/little.c"

static void print_events(uint64_t draws)
{
    printf(" %llu draws", (unsigned long long)draws);
    for (const struct event *it = events; it < events + recorded; it++) {
        printf(" %s%c", (it->thread == MARKS) == (it->kind >= 'a') ? "" : "?", it->kind);
        if (it->kind == 'R' || it->kind == 'W')
            printf("%u", it->reg);
        if (it->value > 0)
            printf(":%llu", (unsigned long long)it->value);
    }
    putchar('\n');
    recorded = 0;
}

#undef main
int main(void)
{
    static const uint64_t refusals[] = {0, 1, 4, 1 << 5 | 1 << 8, 1 | 1 << 2, 1 << 9};
    for (placing = RIGHT; placings[placing]; placing++)
        for (unsigned i = 0; i < 6; i++) {
            struct worker worker = {.thread = THREAD, .round = i, .steps = {{1, false}, {2, true}, {1, true}}, .aborts = i == 5};
            printf("%s:", placings[placing]);
            refused = refusals[i];
            calls = 0;
            make_transaction(&worker);
            print_events(worker.draws * DRAWS_EACH);
        }
    return 0;
}
