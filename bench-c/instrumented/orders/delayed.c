/* Load buffering: a load that is delayed past later stores of its thread. The model returns no store that is made later, but a first run finds
   the candidates: relaxed loads whose values reads have returned, and later stores to the same place by threads that have read what the load's
   thread has stored since. A second run with the same seed has one load return such a store. C++20 allows that, because

   - who knows of the load has not accessed the place before the store, nor made it: coherence;
   - neither of the two, nor a fence since the load by who knows of it, acquires (but the store may) or is sequentially consistent: no more
     happens before, and S orders no more;
   - up to the store, the second run makes the same accesses with the same values: the store doesn't depend on the load. */

/* A first run looks at so many rounds, and keeps so many pairs of the same lines. */
enum { FOLLOWED_ROUNDS = 2000, MOST_ALIKE = 16 };

/* Keeps that a load may return what is stored now. */
static void keep_delay(const tmwatch_access *a, struct load *load, uint64_t value)
{
    const tmwatch_simulation *o = a->orders;
    const struct met *met = &o->met[a->thread][load->thread];
    tmwatch_delays *to = o->delays;
    unsigned alike = 0;
    for (unsigned i = 0; i < to->count; i++)
        alike += to->found[i].load == load->caller && to->found[i].store == a->caller;
    if (to->made || alike == MOST_ALIKE || to->count == TMWATCH_MOST_DELAYS)
        return;
    to->found[to->count++] = (tmwatch_delay){load->caller, a->caller,   met->stored, met->loaded, load->thread, a->thread,
                                             o->round,     load->index, load->value, value,       o->accesses};
    load->is_closed = true;
}

/* Follows an access or a fence: its value, and in which history of a place it is, or 0. */
static void follow(const tmwatch_access *a, uint64_t value, uint32_t place)
{
    uint64_t *all = &a->orders->accesses, what = (uint64_t)place << 32 | (unsigned)a->order << 8 | a->thread;
    *all = ((*all ^ value) * apart_words ^ what) * apart_words;
}

/* An access of a place, maybe a store that becomes the newest and isn't sequentially consistent. */
static void follow_access(const tmwatch_access *a, const struct place *it, uint64_t value, bool is_newest)
{
    tmwatch_simulation *o = a->orders;
    follow(a, value, it->number);
    for (unsigned i = 0; i < o->loads_used; i++) {
        struct load *load = &o->loads[i];
        if (load->place != it->number || load->is_closed)
            continue;
        load->is_closed = is_known(a, load->thread, load->step);
        if (!load->is_closed && is_newest && load->answers && load->value != value && o->met[a->thread][load->thread].step > load->step)
            keep_delay(a, load, value);
    }
    if (o->delays && o->delays->made && o->delays->made->accesses == o->accesses)
        o->delays->stored = *o->recorded;
}

/* A fence; or an attempt begins, which is none, but nothing is moved past that either. */
static void follow_fence(const tmwatch_access *a)
{
    tmwatch_simulation *o = a->orders;
    follow(a, 0, 0);
    for (unsigned i = 0; i < o->loads_used; i++)
        o->loads[i].is_closed |= acquires(a->order) && is_known(a, o->loads[i].thread, o->loads[i].step);
}

/* Keeps a load of this value, and returns what it is to return. */
static uint64_t keep_load(const tmwatch_access *a, const struct place *it, uint64_t value)
{
    tmwatch_simulation *o = a->orders;
    uint32_t index = o->loads_made++;
    const tmwatch_delay *made = o->delays ? o->delays->made : NULL;
    bool is_made = made && o->round == made->round && index == made->index;
    value = is_made ? made->value : value;
    if (o->delays && a->order == RELAXED && o->loads_used < MOST_LOADS)
        o->loads[o->loads_used++] = (struct load){
            value, index, o->views[a->thread].knows.at[a->thread], it->number, a->thread, a->caller, false, false, is_made};
    return value;
}

void tmwatch_orders_answers(tmwatch_simulation *o, unsigned thread, uint64_t value)
{
    unsigned i = o->loads_used;
    while (i > 0 && (o->loads[i - 1].thread != thread || o->loads[i - 1].value != value))
        i--;
    if (i > 0)
        o->loads[i - 1].answers = true;
    if (i > 0 && o->loads[i - 1].is_made)
        o->delays->answered = *o->recorded;
}
