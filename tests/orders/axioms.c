/* The axioms of C++20 ([intro.races], [atomics.order], [atomics.fences]), as relations on the events of one execution, in the manner of
   herd (Alglave, Maranget and Tautschnig, TOPLAS 2014). They share nothing with the model: what an execution has read and the modification
   orders are given. Loads from stores that are made later are left out as the model leaves them out: no cycle of program order and reads.
   Who includes this says how many events there are at most: MOST_EVENTS. */

struct event {
    enum kind kind; /* a swap that fails is a READ, one that succeeds an ADD */
    unsigned thread;
    enum word word;
    int order;
    unsigned from;  /* the event that stored what was read, plus 1; 0: the start */
    unsigned place; /* of a store: its place in the modification order, from 1 on */
    bool is_shared; /* an unlock by one who shares the lock */
};

struct execution {
    unsigned count;
    struct event events[MOST_EVENTS];
};

/* Bit b of of[a]: a is before b. */
typedef struct relation {
    uint32_t of[MOST_EVENTS];
} relation;

static bool reads(const struct event *it)
{
    return it->kind == READ || it->kind == ADD;
}

static bool writes(const struct event *it)
{
    return it->kind == WRITE || it->kind == ADD;
}

static bool is_atomic(const struct event *it)
{
    return reads(it) || writes(it) || it->kind == FENCE;
}

static bool is_seq_cst(const struct event *it)
{
    return it->order == __ATOMIC_SEQ_CST && is_atomic(it);
}

static bool is_release(const struct event *it)
{
    return it->order == __ATOMIC_RELEASE || it->order == __ATOMIC_ACQ_REL || it->order == __ATOMIC_SEQ_CST;
}

static bool is_acquire(const struct event *it)
{
    return it->order == __ATOMIC_ACQUIRE || it->order == __ATOMIC_ACQ_REL || it->order == __ATOMIC_SEQ_CST;
}

static relation both(relation a, const relation *b)
{
    for (unsigned i = 0; i < MOST_EVENTS; i++)
        a.of[i] |= b->of[i];
    return a;
}

static relation then(const relation *a, const relation *b)
{
    relation it = {{0}};
    for (unsigned i = 0; i < MOST_EVENTS; i++)
        for (unsigned j = 0; j < MOST_EVENTS; j++)
            if (a->of[i] >> j & 1)
                it.of[i] |= b->of[j];
    return it;
}

static relation closed(relation it)
{
    for (unsigned k = 0; k < MOST_EVENTS; k++)
        for (unsigned i = 0; i < MOST_EVENTS; i++)
            if (it.of[i] >> k & 1)
                it.of[i] |= it.of[k];
    return it;
}

static bool is_irreflexive(const relation *it)
{
    for (unsigned i = 0; i < MOST_EVENTS; i++)
        if (it->of[i] >> i & 1)
            return false;
    return true;
}

/* The pairs of events for which this holds. */
static relation pairs(const struct execution *x, bool (*holds)(const struct execution *, unsigned, unsigned))
{
    relation it = {{0}};
    for (unsigned a = 0; a < x->count; a++)
        for (unsigned b = 0; b < x->count; b++)
            if (a != b && holds(x, a, b))
                it.of[a] |= UINT32_C(1) << b;
    return it;
}

static bool is_sequenced(const struct execution *x, unsigned a, unsigned b)
{
    return a < b && x->events[a].thread == x->events[b].thread;
}

static bool is_read_from(const struct execution *x, unsigned a, unsigned b)
{
    return reads(&x->events[b]) && x->events[b].from == a + 1;
}

static bool is_same_word(const struct execution *x, unsigned a, unsigned b)
{
    return x->events[a].word == x->events[b].word;
}

static bool is_modified_before(const struct execution *x, unsigned a, unsigned b)
{
    return writes(&x->events[a]) && writes(&x->events[b]) && is_same_word(x, a, b) && x->events[a].place < x->events[b].place;
}

/* The place of what was read. */
static unsigned read_place(const struct execution *x, unsigned a)
{
    return x->events[a].from > 0 ? x->events[x->events[a].from - 1].place : 0;
}

static bool is_read_before(const struct execution *x, unsigned a, unsigned b)
{
    return reads(&x->events[a]) && writes(&x->events[b]) && is_same_word(x, a, b) && read_place(x, a) < x->events[b].place;
}

/* The bench's own: a transaction's end, and the beginning of one that begins later; a lock given back, and taken later. */
static bool is_handed(const struct execution *x, unsigned a, unsigned b)
{
    const struct event *of = &x->events[a], *to = &x->events[b];
    if (of->kind == UNLOCK && (to->kind == LOCK || to->kind == SHARE))
        return a < b && !(of->is_shared && to->kind == SHARE);
    return of->kind == ENDS && to->kind == BEGINS && a < b;
}

/* Whether a read takes its value from the release sequence that this store heads: the store, and read-modify-writes of it. */
static bool is_headed(const struct execution *x, unsigned head, unsigned read)
{
    unsigned from = x->events[read].from;
    for (unsigned i = 0; i < x->count && from > 0 && from != head + 1 && x->events[from - 1].kind == ADD; i++)
        from = x->events[from - 1].from;
    return from == head + 1;
}

/* Whether a synchronizes with b: a release and an acquire, each an operation or a fence beside one. */
static bool is_synchronized(const struct execution *x, unsigned a, unsigned b)
{
    const struct event *of = &x->events[a], *to = &x->events[b];
    if (is_handed(x, a, b))
        return true;
    if (!is_atomic(of) || !is_atomic(to) || !is_release(of) || !is_acquire(to))
        return false;
    for (unsigned w = 0; w < x->count; w++)
        for (unsigned r = 0; r < x->count; r++)
            if (writes(&x->events[w]) && reads(&x->events[r]) && is_headed(x, w, r) &&
                (w == a || (of->kind == FENCE && is_sequenced(x, a, w))) && (r == b || (to->kind == FENCE && is_sequenced(x, r, b))))
                return true;
    return false;
}

static bool is_synchronized_seq_cst(const struct execution *x, unsigned a, unsigned b)
{
    return is_seq_cst(&x->events[a]) && is_seq_cst(&x->events[b]) && is_synchronized(x, a, b);
}

/* Which pairs the order of all sequentially consistent operations has to keep: strongly happens before, and the four rules of
   [atomics.order] on what is coherence-ordered before. */
static relation ordered_seq_cst(const struct execution *x, const relation *happens, const relation *coherence)
{
    relation sequenced = pairs(x, is_sequenced), strongly = pairs(x, is_synchronized_seq_cst), before = {{0}}, after = {{0}}, it;
    relation around = then(&sequenced, happens);
    around = then(&around, &sequenced);
    strongly = both(both(strongly, &sequenced), &around);
    strongly = closed(strongly);
    for (unsigned a = 0; a < x->count; a++)
        for (unsigned b = 0; b < x->count; b++) {
            bool is_fence_before = x->events[a].kind == FENCE && happens->of[a] >> b & 1;
            bool is_fence_after = x->events[b].kind == FENCE && happens->of[a] >> b & 1;
            if (is_seq_cst(&x->events[a]) && (a == b || is_fence_before))
                before.of[a] |= UINT32_C(1) << b;
            if (is_seq_cst(&x->events[b]) && (a == b || is_fence_after))
                after.of[a] |= UINT32_C(1) << b;
        }
    it = then(&before, coherence);
    it = then(&it, &after);
    for (unsigned a = 0; a < x->count; a++)
        for (unsigned b = 0; b < x->count; b++)
            if (strongly.of[a] >> b & 1 && is_seq_cst(&x->events[a]) && is_seq_cst(&x->events[b]))
                it.of[a] |= UINT32_C(1) << b;
    return it;
}

/* The axiom that an execution breaks, or none. */
static const char *broken_axiom(const struct execution *x)
{
    relation sequenced = pairs(x, is_sequenced), read = pairs(x, is_read_from), modified = pairs(x, is_modified_before);
    relation synchronized = pairs(x, is_synchronized), read_before = pairs(x, is_read_before), made = both(sequenced, &read);
    relation happens = closed(both(sequenced, &synchronized));
    relation coherence = both(both(modified, &read), &read_before);
    coherence = closed(coherence);
    made = closed(made);
    if (!is_irreflexive(&happens))
        return "happens before is no order";
    if (!is_irreflexive(&coherence))
        return "coherence has a cycle";
    relation back = then(&happens, &coherence);
    if (!is_irreflexive(&back))
        return "coherence";
    for (unsigned a = 0; a < x->count; a++)
        if (x->events[a].kind == ADD && x->events[a].place != read_place(x, a) + 1)
            return "a read-modify-write that is not whole";
    relation total = closed(ordered_seq_cst(x, &happens, &coherence));
    if (!is_irreflexive(&total))
        return "sequential consistency";
    return is_irreflexive(&made) ? NULL : "a value from a store that is made later";
}

static void print_execution(const struct execution *x)
{
    static const char *const names[] = {"", "R", "W", "RMW", "", "", "F", "begins", "ends", "lock", "share", "unlock"};
    for (unsigned i = 0; i < x->count; i++) {
        const struct event *it = &x->events[i];
        printf("%2u thread %u %s word %u order %d from %u place %u\n", i + 1, it->thread, names[it->kind], it->word, it->order, it->from,
               it->place);
    }
}
