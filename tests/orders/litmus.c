/*
Litmus tests of bench-c/instrumented/orders.c alone, by their usual names (Alglave, Maranget and Tautschnig, TOPLAS 2014; Batty, Owens,
Sarkar, Sewell and Weber, POPL 2011). Each program is run in all ways, one operation of a thread at a time: what C++20 forbids never comes
out, and what it allows does.

    litmus

A line for each test: whether it is right, how often its outcome came, and its name. The exit status is 1 if one is wrong.
*/
#include "choices.c"

enum { MOST_THREADS = 4, MOST_OPERATIONS = 8, RESULTS = 4, ANY = -1 };
enum { RLX = RELAXED, ACQ = ACQUIRE, REL = RELEASE, AR = BOTH, SC = SEQUENTIAL };

#define R(word, order, result) {READ, word, 0, order, result, 0, 0}
#define W(word, value, order) {WRITE, word, value, order, 0, 0, 0}
#define A(word, value, order, result) {ADD, word, value, order, result, 0, 0}
/* A compare-and-swap from 0, and a weak one. */
#define C(word, value, order, result) {SWAP, word, value, order, result, 0, RLX}
#define S(word, expected, value, order, result) {SWAP, word, value, order, result, expected, RLX}
#define K(word, value, result) {WEAK_SWAP, word, value, RLX, result, 0, RLX}
#define F(order) {FENCE, X, 0, order, 0, 0, 0}
#define O(kind) {kind, X, 0, 0, 0, 0, 0}

/* The outcome that is looked for: what was read, and then what the words hold; and whether C++20 allows it, and the model shows it. */
struct litmus {
    const char *name;
    bool is_allowed;
    int outcome[RESULTS + WORDS];
    struct operation threads[MOST_THREADS][MOST_OPERATIONS];
};
#define READS(a, b, c, d) {a, b, c, d, ANY, ANY, ANY}
#define HOLDS(x, y) {ANY, ANY, ANY, ANY, x, y, ANY}
#define ALLOWED true
#define FORBIDDEN false

static const struct litmus all[] = {
    {"SB relaxed", ALLOWED, READS(0, 0, ANY, ANY), {{W(X, 1, RLX), R(Y, RLX, 0)}, {W(Y, 1, RLX), R(X, RLX, 1)}}},
    {"SB release, acquire", ALLOWED, READS(0, 0, ANY, ANY), {{W(X, 1, REL), R(Y, ACQ, 0)}, {W(Y, 1, REL), R(X, ACQ, 1)}}},
    {"SB release, seq_cst loads", ALLOWED, READS(0, 0, ANY, ANY), {{W(X, 1, REL), R(Y, SC, 0)}, {W(Y, 1, REL), R(X, SC, 1)}}},
    {"SB seq_cst", FORBIDDEN, READS(0, 0, ANY, ANY), {{W(X, 1, SC), R(Y, SC, 0)}, {W(Y, 1, SC), R(X, SC, 1)}}},
    {"SB seq_cst, a swap", FORBIDDEN, READS(0, 0, ANY, ANY), {{W(X, 1, SC), R(Y, SC, 0)}, {W(Y, 1, SC), C(X, 9, SC, 1)}}},
    {"SB fences", FORBIDDEN, READS(0, 0, ANY, ANY), {{W(X, 1, RLX), F(SC), R(Y, RLX, 0)}, {W(Y, 1, RLX), F(SC), R(X, RLX, 1)}}},
    {"SB one fence", ALLOWED, READS(0, 0, ANY, ANY), {{W(X, 1, RLX), F(SC), R(Y, RLX, 0)}, {W(Y, 1, RLX), R(X, RLX, 1)}}},
    {"SB acq_rel fences", ALLOWED, READS(0, 0, ANY, ANY), {{W(X, 1, RLX), F(AR), R(Y, RLX, 0)}, {W(Y, 1, RLX), F(AR), R(X, RLX, 1)}}},
    {"SB seq_cst and fence", FORBIDDEN, READS(0, 0, ANY, ANY), {{W(X, 1, SC), R(Y, SC, 0)}, {W(Y, 1, RLX), F(SC), R(X, RLX, 1)}}},
    {"SB adds between", ALLOWED, READS(0, 0, ANY, ANY),
     {{W(X, 1, RLX), A(Z, 1, RLX, 2), R(Y, RLX, 0)}, {W(Y, 1, RLX), A(Z, 1, RLX, 3), R(X, RLX, 1)}}},
    {"SB acq_rel swaps", ALLOWED, READS(0, 0, ANY, ANY), {{C(X, 1, AR, 2), R(Y, ACQ, 0)}, {C(Y, 1, AR, 3), R(X, ACQ, 1)}}},
    {"SB fence, seq_cst add and acquire load", ALLOWED, READS(0, 0, ANY, ANY),
     {{W(X, 1, REL), F(SC), R(Y, ACQ, 0)}, {A(Y, 1, SC, 2), R(X, ACQ, 1)}}},
    {"SB fence, seq_cst add and load", FORBIDDEN, READS(0, 0, ANY, ANY), {{W(X, 1, REL), F(SC), R(Y, ACQ, 0)}, {A(Y, 1, SC, 2), R(X, SC, 1)}}},
    {"SB fence, seq_cst add, fence and load", FORBIDDEN, READS(0, 0, ANY, ANY),
     {{W(X, 1, REL), F(SC), R(Y, ACQ, 0)}, {A(Y, 1, SC, 2), F(SC), R(X, ACQ, 1)}}},
    {"MP relaxed", ALLOWED, READS(1, 0, ANY, ANY), {{W(X, 1, RLX), W(Y, 1, RLX)}, {R(Y, RLX, 0), R(X, RLX, 1)}}},
    {"MP release, acquire", FORBIDDEN, READS(1, 0, ANY, ANY), {{W(X, 1, RLX), W(Y, 1, REL)}, {R(Y, ACQ, 0), R(X, RLX, 1)}}},
    {"MP release, consume", FORBIDDEN, READS(1, 0, ANY, ANY), {{W(X, 1, RLX), W(Y, 1, REL)}, {R(Y, __ATOMIC_CONSUME, 0), R(X, RLX, 1)}}},
    {"MP release, relaxed", ALLOWED, READS(1, 0, ANY, ANY), {{W(X, 1, RLX), W(Y, 1, REL)}, {R(Y, RLX, 0), R(X, RLX, 1)}}},
    {"MP relaxed, acquire", ALLOWED, READS(1, 0, ANY, ANY), {{W(X, 1, RLX), W(Y, 1, RLX)}, {R(Y, ACQ, 0), R(X, RLX, 1)}}},
    {"MP second load acquire", ALLOWED, READS(1, 0, ANY, ANY), {{W(X, 1, RLX), W(Y, 1, REL)}, {R(Y, RLX, 0), R(X, ACQ, 1)}}},
    {"MP fences", FORBIDDEN, READS(1, 0, ANY, ANY), {{W(X, 1, RLX), F(REL), W(Y, 1, RLX)}, {R(Y, RLX, 0), F(ACQ), R(X, RLX, 1)}}},
    {"MP release, acquire fence", FORBIDDEN, READS(1, 0, ANY, ANY), {{W(X, 1, RLX), W(Y, 1, REL)}, {R(Y, RLX, 0), F(ACQ), R(X, RLX, 1)}}},
    {"MP release fence, acquire", FORBIDDEN, READS(1, 0, ANY, ANY), {{W(X, 1, RLX), F(REL), W(Y, 1, RLX)}, {R(Y, ACQ, 0), R(X, RLX, 1)}}},
    {"MP fence before data", ALLOWED, READS(1, 0, ANY, ANY), {{F(REL), W(X, 1, RLX), W(Y, 1, RLX)}, {R(Y, ACQ, 0), R(X, RLX, 1)}}},
    {"MP acquire fence before the flag", ALLOWED, READS(1, 0, ANY, ANY), {{W(X, 1, RLX), W(Y, 1, REL)}, {F(ACQ), R(Y, RLX, 0), R(X, RLX, 1)}}},
    {"MP by an add", FORBIDDEN, READS(2, 0, ANY, ANY), {{W(X, 1, RLX), W(Y, 1, REL)}, {A(Y, 1, RLX, 2)}, {R(Y, ACQ, 0), R(X, RLX, 1)}}},
    {"MP from an acq_rel add", FORBIDDEN, READS(1, 0, ANY, ANY), {{W(X, 1, RLX), A(Y, 1, AR, 2)}, {R(Y, ACQ, 0), R(X, RLX, 1)}}},
    {"MP to an add", FORBIDDEN, READS(1, 0, ANY, ANY), {{W(X, 1, RLX), W(Y, 1, REL)}, {A(Y, 1, ACQ, 0), R(X, RLX, 1)}}},
    {"MP to an add that is relaxed", ALLOWED, READS(1, 0, ANY, ANY), {{W(X, 1, RLX), W(Y, 1, REL)}, {A(Y, 1, REL, 0), R(X, RLX, 1)}}},
    {"MP, an add of old data", ALLOWED, READS(1, 0, ANY, ANY), {{W(X, 1, RLX), W(Y, 1, RLX)}, {R(Y, RLX, 0), A(X, 4, RLX, 1)}}},
    {"MP, a swap of old data", ALLOWED, READS(1, 0, ANY, ANY), {{W(X, 1, RLX), W(Y, 1, RLX)}, {R(Y, RLX, 0), C(X, 4, RLX, 1)}}},
    {"MP, an add of old data, acquired", FORBIDDEN, READS(1, 0, ANY, ANY), {{W(X, 1, RLX), W(Y, 1, REL)}, {R(Y, ACQ, 0), A(X, 4, RLX, 1)}}},
    {"MP by a store after the release", ALLOWED, READS(2, 0, ANY, ANY),
     {{W(X, 1, RLX), W(Y, 1, REL), W(Y, 2, RLX)}, {R(Y, ACQ, 0), R(X, RLX, 1)}}},
    {"MP by an acq_rel add, then a store", ALLOWED, READS(2, 0, ANY, ANY),
     {{A(Z, 1, AR, 2), W(X, 1, RLX), W(Y, 2, RLX)}, {R(Y, ACQ, 0), R(X, RLX, 1)}}},
    {"CoRR", FORBIDDEN, READS(1, 0, ANY, ANY), {{W(X, 1, RLX)}, {R(X, RLX, 0), R(X, RLX, 1)}}},
    {"CoRR of two readers", FORBIDDEN, READS(1, 2, 2, 1),
     {{W(X, 1, RLX)}, {W(X, 2, RLX)}, {R(X, RLX, 0), R(X, RLX, 1)}, {R(X, RLX, 2), R(X, RLX, 3)}}},
    {"CoRR by happens before", FORBIDDEN, READS(1, 1, 0, ANY), {{W(X, 1, RLX)}, {R(X, RLX, 0), W(Y, 1, REL)}, {R(Y, ACQ, 1), R(X, RLX, 2)}}},
    {"CoWR", FORBIDDEN, READS(0, ANY, ANY, ANY), {{W(X, 1, RLX), R(X, RLX, 0)}, {W(X, 2, RLX)}}},
    {"CoWW", FORBIDDEN, HOLDS(1, ANY), {{W(X, 1, RLX), W(X, 2, RLX)}, {R(X, RLX, 0)}}},
    {"CoRW", FORBIDDEN, {1, ANY, ANY, ANY, 1, ANY, ANY}, {{W(X, 1, RLX)}, {R(X, RLX, 0), W(X, 2, RLX)}}},
    {"WRC relaxed", ALLOWED, READS(1, 1, 0, ANY), {{W(X, 1, RLX)}, {R(X, RLX, 0), W(Y, 1, RLX)}, {R(Y, ACQ, 1), R(X, RLX, 2)}}},
    {"WRC release, acquire", FORBIDDEN, READS(1, 1, 0, ANY), {{W(X, 1, RLX)}, {R(X, RLX, 0), W(Y, 1, REL)}, {R(Y, ACQ, 1), R(X, RLX, 2)}}},
    {"ISA2", FORBIDDEN, READS(1, 1, 0, ANY), {{W(X, 1, RLX), W(Y, 1, REL)}, {R(Y, ACQ, 0), W(Z, 1, REL)}, {R(Z, ACQ, 1), R(X, RLX, 2)}}},
    {"ISA2 relaxed in the middle", ALLOWED, READS(1, 1, 0, ANY),
     {{W(X, 1, RLX), W(Y, 1, REL)}, {R(Y, RLX, 0), W(Z, 1, REL)}, {R(Z, ACQ, 1), R(X, RLX, 2)}}},
    {"IRIW acquire", ALLOWED, READS(1, 0, 1, 0), {{W(X, 1, REL)}, {W(Y, 1, REL)}, {R(X, ACQ, 0), R(Y, ACQ, 1)}, {R(Y, ACQ, 2), R(X, ACQ, 3)}}},
    {"IRIW seq_cst", FORBIDDEN, READS(1, 0, 1, 0), {{W(X, 1, SC)}, {W(Y, 1, SC)}, {R(X, SC, 0), R(Y, SC, 1)}, {R(Y, SC, 2), R(X, SC, 3)}}},
    {"IRIW fences", FORBIDDEN, READS(1, 0, 1, 0),
     {{W(X, 1, RLX)}, {W(Y, 1, RLX)}, {R(X, RLX, 0), F(SC), R(Y, RLX, 1)}, {R(Y, RLX, 2), F(SC), R(X, RLX, 3)}}},
    {"RWC relaxed", ALLOWED, READS(1, 0, 0, ANY), {{W(X, 1, RLX)}, {R(X, ACQ, 0), R(Y, RLX, 1)}, {W(Y, 1, RLX), R(X, RLX, 2)}}},
    {"RWC fences", FORBIDDEN, READS(1, 0, 0, ANY),
     {{W(X, 1, RLX)}, {R(X, RLX, 0), F(SC), R(Y, RLX, 1)}, {W(Y, 1, RLX), F(SC), R(X, RLX, 2)}}},
    {"W+RWC fences", FORBIDDEN, READS(1, 0, 0, ANY),
     {{W(X, 1, RLX), W(Z, 1, REL)}, {R(Z, ACQ, 0), F(SC), R(Y, RLX, 1)}, {W(Y, 1, RLX), F(SC), R(X, RLX, 2)}}},
    {"2+2W relaxed", ALLOWED, HOLDS(1, 1), {{W(X, 1, RLX), W(Y, 2, RLX)}, {W(Y, 1, RLX), W(X, 2, RLX)}}},
    {"2+2W release", ALLOWED, HOLDS(1, 1), {{W(X, 1, REL), W(Y, 2, REL)}, {W(Y, 1, REL), W(X, 2, REL)}}},
    {"2+2W seq_cst", FORBIDDEN, HOLDS(1, 1), {{W(X, 1, SC), W(Y, 2, SC)}, {W(Y, 1, SC), W(X, 2, SC)}}},
    {"2+2W fences", FORBIDDEN, HOLDS(1, 1), {{W(X, 1, RLX), F(SC), W(Y, 2, RLX)}, {W(Y, 1, RLX), F(SC), W(X, 2, RLX)}}},
    {"S relaxed", ALLOWED, {1, ANY, ANY, ANY, 2, ANY, ANY}, {{W(X, 2, RLX), W(Y, 1, RLX)}, {R(Y, RLX, 0), W(X, 1, RLX)}}},
    {"S release, acquire", FORBIDDEN, {1, ANY, ANY, ANY, 2, ANY, ANY}, {{W(X, 2, RLX), W(Y, 1, REL)}, {R(Y, ACQ, 0), W(X, 1, RLX)}}},
    {"R release", ALLOWED, {0, ANY, ANY, ANY, ANY, 2, ANY}, {{W(X, 1, REL), W(Y, 1, REL)}, {W(Y, 2, REL), R(X, ACQ, 0)}}},
    {"R fences", FORBIDDEN, {0, ANY, ANY, ANY, ANY, 2, ANY}, {{W(X, 1, RLX), F(SC), W(Y, 1, RLX)}, {W(Y, 2, RLX), F(SC), R(X, RLX, 0)}}},
    {"R seq_cst", FORBIDDEN, {0, ANY, ANY, ANY, ANY, 2, ANY}, {{W(X, 1, SC), W(Y, 1, SC)}, {W(Y, 2, SC), R(X, SC, 0)}}},
    {"Z6.U", ALLOWED, READS(1, 3, 0, ANY), {{W(X, 1, SC), W(Y, 1, REL)}, {A(Y, 1, SC, 0), R(Y, RLX, 1)}, {W(Y, 3, SC), R(X, SC, 2)}}},
    {"MP seq_cst, then relaxed", ALLOWED, READS(1, 0, ANY, ANY), {{W(X, 1, SC), W(Y, 1, RLX)}, {R(Y, RLX, 0), R(X, SC, 1)}}},
    {"MP seq_cst, then relaxed, to seq_cst", ALLOWED, READS(1, 0, ANY, ANY), {{W(X, 1, SC), W(Y, 1, RLX)}, {R(Y, SC, 0), R(X, SC, 1)}}},
    {"MP seq_cst, then release", FORBIDDEN, READS(1, 0, ANY, ANY), {{W(X, 1, SC), W(Y, 1, REL)}, {R(Y, ACQ, 0), R(X, SC, 1)}}},
    {"S seq_cst, then relaxed", ALLOWED, {1, ANY, ANY, ANY, 2, ANY, ANY}, {{W(X, 2, SC), W(Y, 1, RLX)}, {R(Y, RLX, 0), W(X, 1, SC)}}},
    {"RWC seq_cst, by an acquire", ALLOWED, READS(1, 0, 0, ANY), {{W(X, 1, SC)}, {R(X, ACQ, 0), R(Y, SC, 1)}, {W(Y, 1, SC), R(X, SC, 2)}}},
    {"RWC seq_cst, by the first of two operations", FORBIDDEN, READS(0, 1, 0, ANY),
     {{W(Y, 1, SC), R(X, SC, 0)}, {W(X, 1, SC), W(Z, 1, REL), R(X, SC, 3)}, {R(Z, ACQ, 1), R(Y, SC, 2)}}},
    {"MP seq_cst by two readers of one store", ALLOWED, {1, 1, 0, ANY, ANY, ANY, 2},
     {{W(X, 1, RLX)}, {W(Y, 1, SC), R(X, SC, 0), S(Z, 0, 1, RLX, 3)}, {S(Z, 1, 2, RLX, 3), R(X, SC, 1), R(Y, SC, 2)}}},
    {"MP seq_cst by two readers of an older store", ALLOWED, {1, 1, 0, ANY, ANY, ANY, 4},
     {{W(X, 1, SC), W(X, 2, RLX), S(Z, 0, 1, RLX, 3)},
      {S(Z, 1, 2, RLX, 3), W(Y, 1, SC), R(X, SC, 0), S(Z, 2, 3, RLX, 3)},
      {S(Z, 3, 4, RLX, 3), R(X, SC, 1), R(Y, SC, 2)}}},
    {"LB, which is left out", FORBIDDEN, READS(1, 1, ANY, ANY), {{R(X, RLX, 0), W(Y, 1, RLX)}, {R(Y, RLX, 1), W(X, 1, RLX)}}},
    {"LB acquire, release", FORBIDDEN, READS(1, 1, ANY, ANY), {{R(X, ACQ, 0), W(Y, 1, REL)}, {R(Y, ACQ, 1), W(X, 1, REL)}}},
    {"adds are whole", FORBIDDEN, READS(0, 0, ANY, ANY), {{A(X, 1, RLX, 0)}, {A(X, 1, RLX, 1)}}},
    {"nothing between an add and what it has read", FORBIDDEN, {1, ANY, ANY, ANY, 1, ANY, ANY}, {{W(X, 1, RLX)}, {A(X, 5, RLX, 0)}}},
    {"a swap fails by an old value", ALLOWED, READS(1, 1, ANY, ANY),
     {{W(X, 1, RLX), W(X, 0, RLX), W(Y, 1, RLX)}, {R(Y, RLX, 0), C(X, 9, RLX, 1)}}},
    {"a swap fails by no old value that it looks for", FORBIDDEN, READS(ANY, 0, 0, ANY), {{W(X, 1, RLX)}, {C(X, 9, RLX, 1), R(X, RLX, 2)}}},
    {"MP to a swap that fails and acquires only if it succeeds", ALLOWED, READS(1, 0, ANY, ANY),
     {{W(X, 1, RLX), W(Y, 1, REL)}, {C(Y, 9, ACQ, 0), R(X, RLX, 1)}}},
    {"MP to a swap", FORBIDDEN, READS(1, 0, ANY, ANY), {{W(X, 1, RLX), W(Y, 1, REL)}, {R(Y, RLX, 0), S(Y, 1, 9, ACQ, 2), R(X, RLX, 1)}}},
    {"a swap of old data, acquired", FORBIDDEN, READS(1, 0, ANY, ANY), {{W(X, 1, RLX), W(Y, 1, REL)}, {R(Y, ACQ, 0), C(X, 4, RLX, 1)}}},
    {"a weak swap fails", ALLOWED, HOLDS(0, ANY), {{K(X, 1, 0)}}},
    {"a strong swap succeeds", FORBIDDEN, HOLDS(0, ANY), {{C(X, 1, RLX, 0)}}},
    {"one swap of two", FORBIDDEN, READS(0, 0, ANY, ANY), {{C(X, 1, RLX, 0)}, {C(X, 2, RLX, 1)}}},
    {"MP by transactions", FORBIDDEN, READS(1, 0, ANY, ANY),
     {{W(X, 1, RLX), W(Y, 1, RLX), O(ENDS), W(Z, 1, RLX)}, {R(Z, RLX, 0), O(BEGINS), R(Y, RLX, 1)}}},
    {"MP by a transaction that has begun before", ALLOWED, READS(1, 0, ANY, ANY),
     {{W(X, 1, RLX), W(Y, 1, RLX), O(ENDS), W(Z, 1, RLX)}, {O(BEGINS), R(Z, RLX, 0), R(Y, RLX, 1)}}},
    {"MP by a lock", FORBIDDEN, READS(1, 0, ANY, ANY), {{W(X, 1, RLX), O(UNLOCK), W(Y, 1, RLX)}, {R(Y, RLX, 0), O(LOCK), R(X, RLX, 1)}}},
    {"MP to a shared lock", FORBIDDEN, READS(1, 0, ANY, ANY), {{W(X, 1, RLX), O(UNLOCK), W(Y, 1, RLX)}, {R(Y, RLX, 0), O(SHARE), R(X, RLX, 1)}}},
    {"MP from a shared lock", FORBIDDEN, READS(1, 0, ANY, ANY),
     {{O(SHARE), W(X, 1, RLX), O(UNLOCK), W(Y, 1, RLX)}, {R(Y, RLX, 0), O(LOCK), R(X, RLX, 1)}}},
    {"MP between shared locks", ALLOWED, READS(1, 0, ANY, ANY),
     {{O(SHARE), W(X, 1, RLX), O(UNLOCK), W(Y, 1, RLX)}, {R(Y, RLX, 0), O(SHARE), R(X, RLX, 1)}}},
    {"MP by a lock that was shared before", FORBIDDEN, READS(1, 0, ANY, ANY),
     {{O(SHARE), O(UNLOCK), W(X, 1, RLX), O(UNLOCK), W(Y, 1, RLX)}, {R(Y, RLX, 0), O(SHARE), R(X, RLX, 1)}}},
};

static uint64_t results[RESULTS];

/* Chooses which thread makes its next operation: any of those that have one; MOST_THREADS if none has. */
static unsigned choose_thread(const struct litmus *it, const unsigned next[MOST_THREADS])
{
    unsigned able[MOST_THREADS], count = 0;
    for (unsigned i = 0; i < MOST_THREADS; i++)
        if (it->threads[i][next[i]].kind != END)
            able[count++] = i;
    return count > 0 ? able[choose(count)] : MOST_THREADS;
}

/* Runs it once: whether the outcome has come. */
static bool run(const struct litmus *it, tmwatch_simulation *orders)
{
    unsigned next[MOST_THREADS] = {0}, thread;
    begin_choices(orders);
    memset(results, 0, sizeof results);
    while ((thread = choose_thread(it, next)) < MOST_THREADS) {
        const struct operation *operation = &it->threads[thread][next[thread]++];
        uint64_t read = 0;
        make(orders, thread, operation, &read);
        if (operation->kind == READ || operation->kind == ADD || operation->kind == SWAP || operation->kind == WEAK_SWAP)
            results[operation->result] = read;
    }
    for (unsigned i = 0; i < RESULTS + WORDS; i++) {
        uint64_t came = i < RESULTS ? results[i] : words[i - RESULTS];
        if (it->outcome[i] != ANY && (uint64_t)it->outcome[i] != came)
            return false;
    }
    return true;
}

int main(void)
{
    tmwatch_simulation *orders = tmwatch_orders_new(1, &recorded, NULL);
    unsigned wrong = 0;
    for (unsigned i = 0; i < sizeof all / sizeof all[0]; i++) {
        unsigned long came = 0, runs = 0;
        do {
            came += run(&all[i], orders);
            runs++;
        } while (has_next());
        bool is_right = all[i].is_allowed == (came > 0);
        wrong += !is_right;
        printf("%-6s %-9s %8lu of %-8lu  %s\n", is_right ? "right" : "WRONG", all[i].is_allowed ? "allowed" : "forbidden", came, runs,
               all[i].name);
    }
    printf("%zu litmus tests, %u wrong\n", sizeof all / sizeof all[0], wrong);
    free(orders);
    return wrong > 0;
}
