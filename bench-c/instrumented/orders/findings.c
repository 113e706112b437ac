/* What is told of the orders: which accesses were not of the newest store, the first race, and what orders threads untracked. */

/* The newest store to the place in this attempt of the thread, if who has made the missed store has read, after that and in the same attempt, an
   older one there. */
static const struct store *find_missed(const tmwatch_access *a, const struct place *it, const struct store *missed)
{
    unsigned other = missed->thread;
    const struct read *read = &it->read[other];
    bool is_later = it->bytes > 0 && read->attempt == missed->attempt && read->step > missed->seen.at[other];
    for (unsigned k = it->count; is_later && k > 0 && it->stores[k - 1].seen.at[other] - 1 >= read->step; k--) {
        const struct store *own = &it->stores[k - 1];
        if (own->caller && own->thread == a->thread && own->attempt == a->orders->views[a->thread].attempts)
            return own;
    }
    return NULL;
}

/* Sets what would forbid a deviation, which misses this store. */
static void set_cure(const tmwatch_access *a, const struct store *missed, struct deviation *it)
{
    const tmwatch_simulation *o = a->orders;
    it->is_released = it->met.released >= missed->seen.at[missed->thread];
    it->cures = !it->met.stored ? 0 : it->is_released == it->met.is_acquired ? BOTH_HALVES : ONE_HALF;
    for (unsigned i = 0; i < o->used && !(it->cures & (ONE_HALF | FENCES)) && it->kind == STALE_LOAD; i++) {
        const struct store *own = find_missed(a, &o->places[i], missed);
        if (!own)
            continue;
        it->cures |= FENCES;
        it->stored = own->caller;
        it->read = o->places[i].read[missed->thread].caller;
    }
}

/* Keeps that an access has found this store, or stores after it, if that isn't the newest. */
static void keep_deviation(const tmwatch_access *a, const struct place *it, unsigned found, enum deviation_kind kind)
{
    tmwatch_simulation *o = a->orders;
    if (found + 1 >= it->count)
        return;
    const struct store *next = &it->stores[found + 1];
    const struct met *met = &o->met[a->thread][next->thread];
    struct deviation *made = &o->deviations[o->deviated % KEPT_DEVIATIONS];
    *made = (struct deviation){.event = *o->recorded, .caller = a->caller, .other = next->caller, .kind = (uint8_t)kind};
    made->thread = (uint8_t)a->thread;
    made->other_thread = next->thread;
    made->newer = (uint8_t)(it->count - 1 - found);
    if (met->step > next->seen.at[next->thread])
        made->met = *met;
    set_cure(a, next, made);
    o->deviated++;
}

/* Keeps that a thread has read a store of a place, and which one of another. */
static void meet(const tmwatch_access *a, struct place *place, const struct store *it)
{
    const struct view *view = &a->orders->views[a->thread];
    struct met *met = &a->orders->met[a->thread][it->thread];
    uint32_t step = it->seen.at[it->thread];
    place->read[a->thread] = (struct read){view->knows.at[a->thread], view->attempts, a->caller};
    if (it->caller && it->thread != a->thread && step > met->step)
        *met = (struct met){step, it->releases.at[it->thread], it->caller, a->caller, acquires(a->order)};
}

/* The first of those kept that is the same one from this event on, and how many there are up to that event; this one if it is the first. */
static uint64_t count_same(const tmwatch_simulation *o, const struct deviation *it, uint64_t first, uint64_t from, uint64_t to, uint64_t *found)
{
    uint64_t count = 0;
    for (uint64_t i = first; i < o->deviated; i++) {
        const struct deviation *other = &o->deviations[i % KEPT_DEVIATIONS];
        if (other->event < from || other->event >= to || other->kind != it->kind || other->caller != it->caller || other->other != it->other ||
            other->met.stored != it->met.stored || other->met.loaded != it->met.loaded)
            continue;
        if (count++ == 0 || other->cures > o->deviations[*found % KEPT_DEVIATIONS].cures)
            *found = i;
    }
    return count;
}

/* Tells what one thread had read of the other one before, between these texts. */
static void tell_met(const struct met *it, FILE *file, const char *before, unsigned thread, unsigned other, const char *after)
{
    fprintf(file, "%salthough thread %u had already seen thread %u's later store at ", before, thread, other);
    print_place(file, it->stored);
    fputs(", at ", file);
    print_place(file, it->loaded);
    fputs(after, file);
}

/* Tells which pattern it is, and what would forbid that. */
static void tell_cure(const struct deviation *it, FILE *file)
{
    unsigned thread = it->thread, other = it->other_thread;
    if (it->cures & FENCES) {
        fprintf(file, "    and after that store, thread %u missed thread %u's store at ", other, thread);
        print_place(file, it->stored);
        fputs(", at ", file);
        print_place(file, it->read);
        fputs("\n    store buffering: both need a full fence between the store and the load\n", file);
        return;
    }
    fputs("    message passing: ", file);
    if (!it->is_released)
        fprintf(file, "thread %u needs a release between its two stores%s", other, it->met.is_acquired ? "\n" : ", and ");
    if (!it->met.is_acquired)
        fprintf(file, "thread %u needs an acquire between its two accesses\n", thread);
}

/* Tells one, how many others are like it, and this cure, if it is one of this. */
static void tell_deviation(const struct deviation *it, uint64_t count, unsigned cure, FILE *file)
{
    fprintf(file, it->kind == STALE_LOAD ? "  stale load: thread %u at " : "  late store: thread %u at ", (unsigned)it->thread);
    print_place(file, it->caller);
    fprintf(file, it->kind == STALE_LOAD ? " missed thread %u's store at " : " is ordered before thread %u's store at ",
            (unsigned)it->other_thread);
    print_place(file, it->other);
    if (it->newer > 1)
        fprintf(file, " and %u later store%s", (unsigned)it->newer - 1, it->newer > 2 ? "s" : "");
    fprintf(file, count > 1 ? " (and %llu like this)\n" : "\n", (unsigned long long)count - 1);
    if (it->met.stored)
        tell_met(&it->met, file, "    ", it->thread, it->other_thread, "\n");
    if (it->cures & cure)
        tell_cure(it, file);
}

void tmwatch_orders_tell(const tmwatch_simulation *o, FILE *file, uint64_t from, uint64_t to)
{
    uint64_t first = o->deviated >= KEPT_DEVIATIONS ? o->deviated + 1 - KEPT_DEVIATIONS : 0, told = 0, found = 0;
    unsigned cures = 0;
    for (uint64_t i = first; i < o->deviated; i++) {
        const struct deviation *it = &o->deviations[i % KEPT_DEVIATIONS];
        cures |= it->event >= from && it->event < to ? it->cures : 0u;
    }
    /* (of more than one pattern it isn't clear which it is) */
    unsigned cure = cures == (BOTH_HALVES | ONE_HALF) ? ONE_HALF : (cures & (cures - 1)) == 0 ? cures : 0;
    for (uint64_t i = first; i < o->deviated; i++) {
        const struct deviation *it = &o->deviations[i % KEPT_DEVIATIONS];
        if (it->event < from || it->event >= to)
            continue;
        uint64_t count = count_same(o, it, first, from, to, &found);
        if (found != i)
            continue;
        if (told++ == 0)
            fputs("C++20 allows this, which happened earlier in this round:\n", file);
        tell_deviation(it, count, cure, file);
    }
    if (told == 0 && first > 0 && o->deviations[first % KEPT_DEVIATIONS].event >= from)
        fputs("to see the stale loads of this round, rerun with the options above\n", file);
}

/* Tells of two accesses, and what the second's thread has read of the first's: in so many bytes without a quote. */
static void tell_two(const struct race *it, const struct met *met, char *text, size_t size)
{
    static const char *const names[] = {"reads", "writes", "loads atomically", "stores atomically"};
    FILE *file = fmemopen(text, size - 1, "w");
    if (!file)
        return;
    fprintf(file, "thread %u %s at ", it->thread, names[it->kind]);
    print_place(file, it->caller);
    fprintf(file, ", thread %u %s", it->other, names[it->other_kind]);
    if (it->other_caller) {
        fputs(" at ", file);
        print_place(file, it->other_caller);
    }
    if (met) {
        tell_met(met, file, ", ", it->thread, it->other, "");
        fprintf(file, ": load buffering, so thread %u needs a release and thread %u an acquire between its two accesses", it->thread,
                it->other);
    }
    fclose(file);
    while ((text = strpbrk(text, "\"\\")))
        *text = '\'';
}

void tmwatch_orders_tell_race(const tmwatch_simulation *o, char *text, size_t size)
{
    if (o->has_race)
        tell_two(&o->race, NULL, text, size);
}

void tmwatch_orders_tell_delay(const tmwatch_delay *it, char *text, size_t size)
{
    const struct race two = {it->loader, it->storer, ATOMIC_LOAD, ATOMIC_STORE, it->load, it->store};
    tell_two(&two, &(struct met){.stored = it->met_stored, .loaded = it->met_loaded}, text, size);
}

uint64_t tmwatch_orders_tell_untracked(const tmwatch_simulation *o, FILE *file, bool is_wrong)
{
    static const char *const texts[] = {
        "warning: code that the compiler has not marked, or a thread of the memory's own, stores to what is loaded at ",
        "warning: a lock or a wait of code that the compiler has not marked, in "};
    uint64_t kinds = 0;
    for (unsigned i = 0; i < UNTRACKED_KINDS; i++) {
        kinds |= (uint64_t)(o->untracked_at[i] != NULL) << i;
        if (!is_wrong || !o->untracked_at[i])
            continue;
        fputs(texts[i], file);
        print_place(file, o->untracked_at[i]);
        fputs(". What that orders is not tracked, so a violation may be false\n", file);
    }
    return kinds;
}
