/* Writes a trace of a run that is opaque (with `doomed`, only strictly serializable), for measure/ and tests/speed.sh.
 *
 *   traces PROFILE SEED EVENTS
 *
 * It is the run of a memory that buffers the writes of a transaction until it commits, and aborts the transaction if a value that it read
 * has changed. Some threads run a transaction each, step by step, in a random order. When all have ended, the next ones begin. The trace
 * ends after the first such round in which it has reached EVENTS events.
 */
#include <inttypes.h>
#include <stdbool.h>
#include <stdio.h>
#include <stdlib.h>
#include <string.h>

/* What runs: from `least` to `most` threads at a time, from `fewest` to `greatest` operations a transaction, over so many registers;
 * of ten operations so many read, and the others write one of so many values. With `bench`, as in the bench for C, a thread runs two
 * transactions, by up to three steps a turn. Of ten operations two add and the others read; half of what was read is then written. One
 * transaction of eight asks to abort. With `outcomes`, blind writers of the first five registers leave 64 outcomes before that, and the
 * run has the next registers. With `doomed`, a read is answered whatever was read before, and a transaction goes on until its commit fails. */
struct profile {
    const char *name;
    unsigned least, most, fewest, greatest, registers, reads, values;
    bool bench, outcomes, doomed;
};

/* The last number of blind keeps the outcomes at a cut below 64. */
static const struct profile profiles[] = {
    {"serial", 1, 1, 1, 4, 8, 5, 1000000, false, false, false},
    {"calm", 2, 4, 1, 4, 8, 5, 1000000, false, false, false},
    {"wide", 8, 8, 2, 4, 8, 8, 1000000, false, false, false},
    {"long", 2, 4, 64, 64, 8, 8, 1000000, false, false, false},
    {"blind", 8, 8, 1, 2, 3, 0, 3, false, false, false},
    {"bench", 4, 4, 3, 3, 3, 10, 1000000, true, false, false},
    {"outcomes", 4, 4, 3, 3, 3, 10, 1000000, true, true, false},
    {"doomed", 4, 4, 2, 16, 8, 8, 1000000, false, false, true},
};

enum step { CALLS, IS_ANSWERED, ASKS, COMMITS, HAS_ENDED };

struct transaction {
    enum step step;
    unsigned left, later;
    unsigned reg;
    uint64_t value;
    bool reads, adds, updates, gives_up, fails;
    bool has_read[8], has_written[8];
    uint64_t read[8], written[8];
};

static uint64_t state, memory[8], events;

/* At most so many values each register may hold at the last cut, since only blind writers may come last in place of others; and whether
 * one has written it since. */
static unsigned values_of[8];
static bool is_written[8];

static unsigned draw(unsigned below) {
    state ^= state << 13;
    state ^= state >> 7;
    state ^= state << 17;
    return (unsigned)((state >> 33) % below);
}

/* Whether each register that it has read still holds what it read there. */
static bool is_valid(const struct transaction *t) {
    for (unsigned r = 0; r < 8; r++)
        if (t->has_read[r] && t->read[r] != memory[r]) return false;
    return true;
}

static void end(struct transaction *t, unsigned thread, char kind) {
    printf("%u %c\n", thread, kind);
    t->step = HAS_ENDED;
}

/* An operation's answer: a read gives the transaction's own value, or the memory's, where all that was read before still stands, or where
 * `doomed` ones go on. */
static void answer(struct transaction *t, unsigned thread, bool doomed) {
    unsigned r = t->reg;
    if (!t->reads) {
        t->has_written[r] = true;
        t->written[r] = t->value;
        printf("%u K\n", thread);
    } else if (t->has_written[r]) {
        printf("%u V %" PRIu64 "\n", thread, t->written[r]);
    } else if (doomed || is_valid(t)) {
        t->fails |= t->has_read[r] && t->read[r] != memory[r];
        t->has_read[r] = true;
        t->read[r] = memory[r];
        printf("%u V %" PRIu64 "\n", thread, memory[r]);
    } else {
        end(t, thread, 'A');
        return;
    }
    if (t->adds) {
        t->written[r] = (t->has_written[r] ? t->written[r] : memory[r]) + t->value;
        t->has_written[r] = true;
    }
    if (!t->updates) t->left--;
    t->step = t->left ? CALLS : ASKS;
}

/* The end of a commit: what it has written shows at once. */
static void commit(struct transaction *t, unsigned thread) {
    if (t->fails || !is_valid(t)) {
        end(t, thread, 'A');
        return;
    }
    for (unsigned r = 0; r < 8; r++) {
        if (t->has_written[r]) {
            memory[r] = t->written[r];
            values_of[r] = is_written[r] ? values_of[r] + !t->has_read[r] : 1;
            is_written[r] = true;
        } else if (t->has_read[r] && !is_written[r]) {
            values_of[r] = 1;
        }
    }
    end(t, thread, 'C');
}

static void go_on(struct transaction *t, unsigned thread, const struct profile *p) {
    events++;
    switch (t->step) {
    case CALLS:
        if (!t->updates) t->reg = (p->outcomes ? 5 : 0) + draw(p->registers);
        t->reads = !t->updates && draw(10) < p->reads;
        t->adds = p->bench && t->reads && draw(10) < 2;
        t->updates = p->bench && t->reads && !t->adds && draw(2);
        t->value = draw(t->adds ? 100 : p->values);
        t->step = IS_ANSWERED;
        if (t->adds) printf("%u N %u %" PRIu64 "\n", thread, t->reg, t->value);
        else if (t->reads) printf("%u R %u\n", thread, t->reg);
        else printf("%u W %u %" PRIu64 "\n", thread, t->reg, t->value);
        break;
    case IS_ANSWERED: answer(t, thread, p->doomed); break;
    case ASKS:
        t->gives_up = p->bench && draw(8) == 0;
        printf("%u %c\n", thread, t->gives_up ? 'X' : 'T');
        t->step = COMMITS;
        break;
    default:
        if (t->gives_up) end(t, thread, 'A');
        else commit(t, thread);
    }
}

/* Whether there may be more outcomes than the 64 that are judged, if the round ends with this transaction. */
static bool may_be_many(const struct profile *p, const struct transaction *last) {
    unsigned most = 1;
    for (unsigned r = 0; r < p->registers; r++) {
        unsigned values = values_of[r] + (last->has_written[r] && !last->has_read[r] && is_written[r]);
        if (values > p->values) values = p->values;
        most *= values ? values : 1;
    }
    return most > 64;
}

/* The rest of a transaction that has called a read of register 0 before the round's last one ended: it reads what each register holds then,
 * and so there is one outcome. */
static void read_all(const struct profile *p, unsigned thread) {
    for (unsigned r = 0; r < p->registers; r++) {
        if (r) printf("%u R %u\n", thread, r);
        printf("%u V %" PRIu64 "\n", thread, memory[r]);
        values_of[r] = 1;
    }
    printf("%u T\n%u C\n", thread, thread);
    events += 2 * p->registers + 2;
}

static void run_round(const struct profile *p) {
    struct transaction all[8];
    unsigned going[8], count = p->least + draw(p->most - p->least + 1), reader = 0;
    bool is_read = false;
    memset(all, 0, sizeof all);
    for (unsigned k = 0; k < count; k++) {
        going[k] = k;
        all[k].left = p->fewest + draw(p->greatest - p->fewest + 1);
        all[k].later = p->bench;
        /* All begin before any ends. */
        if (!p->bench) go_on(&all[k], k, p);
    }
    while (count) {
        unsigned at = draw(count), thread = going[at];
        unsigned steps = p->bench ? 1 + draw(3) : 1;
        /* (in the bench no write is blind, so that there is one outcome; and a window has eight transactions at most) */
        if (count == 1 && !is_read && !p->bench && p->most < 8 && all[thread].step != CALLS && may_be_many(p, &all[thread])) {
            is_read = true;
            reader = thread ? 0 : 1;
            printf("%u R 0\n", reader);
        }
        while (steps-- && all[thread].step != HAS_ENDED) go_on(&all[thread], thread, p);
        if (all[thread].step != HAS_ENDED) continue;
        if (all[thread].later) all[thread] = (struct transaction){.left = p->fewest};
        else going[at] = going[--count];
    }
    if (is_read) read_all(p, reader);
    memset(is_written, 0, sizeof is_written);
}

/* So many blind writers of the register, which all overlap: any of them may be the last. */
static void write_blindly(unsigned reg, unsigned writers) {
    for (unsigned k = 0; k < writers; k++) printf("%u W %u %u\n%u K\n%u T\n", k, reg, k + 1, k, k);
    for (unsigned k = 0; k < writers; k++) printf("%u C\n", k);
    events += 4 * writers;
}

int main(int count, char **words) {
    const struct profile *p = NULL;
    for (size_t k = 0; count == 4 && k < sizeof profiles / sizeof *profiles; k++)
        if (!strcmp(profiles[k].name, words[1])) p = &profiles[k];
    if (!p) {
        fprintf(stderr, "usage: traces serial|calm|wide|long|blind|bench|outcomes|doomed SEED EVENTS\n");
        return 2;
    }
    state = strtoull(words[2], NULL, 10) * 2654435769u + 88172645463325252u;
    uint64_t most = strtoull(words[3], NULL, 10);
    puts(p->bench ? "opacity-trace 2 8 0 0 0 0 0 0 0 0" : "opacity-trace 1 8");
    for (unsigned r = 0; p->outcomes && r < 5; r++) write_blindly(r, r ? 2 : 4);
    while (events < most) run_round(p);
    return ferror(stdout) || fflush(stdout) ? 1 : 0;
}
