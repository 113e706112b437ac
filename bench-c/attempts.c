/* A transaction's attempts: each call is recorded, made by the memory, and its answer recorded. */

/* The thread of a bench that is this one. */
static _Thread_local tmwatch_attempt *this_thread;

/* Stops the bench, since the watch has answered what wasn't to be. */
static void stop(struct bench *b, uint32_t status)
{
    uint_least32_t none = TMWATCH_OK;
    atomic_compare_exchange_strong(&b->fault, &none, status);
    b->stops = true;
}

static void pause_sometimes(tmwatch_attempt *a, unsigned pauses)
{
    if (a->by->pause)
        a->by->pause(a, pauses);
}

void tmwatch_step_at(const void *caller, unsigned pauses)
{
    if (!this_thread)
        return;
    this_thread->caller = caller;
    if (tmwatch_step_drain_of)
        tmwatch_step_drain_of(&this_thread->how, pauses);
    pause_sometimes(this_thread, pauses);
}

void tmwatch_pause(void)
{
    tmwatch_step_at(TMWATCH_CALLER, 1);
}

unsigned tmwatch_thread(void)
{
    return this_thread ? this_thread->thread : 0;
}

static void set_place(tmwatch_attempt *a, enum place place, unsigned reg)
{
    atomic_store_explicit(&a->inside, (unsigned)place + 256 * reg, memory_order_relaxed);
}

/* Whether nothing more is known of the attempt: it is one of before the memory's crash, or the record is closed. */
static bool is_lost(const tmwatch_attempt *a)
{
    return a->bench->is_closed || (a->bench->restart && a->thread < a->bench->plan.threads);
}

void tmwatch_bench_crash(void (*restart)(void *memory))
{
    this_thread->bench->restart = restart;
    this_thread->bench->stops = true;
}

/* Records the attempt's next call, or this answer to the one that waits, and keeps the event. There is room for it: the thread has asked for
   all of the round, or the attempt, before that began. What the thread has stored comes out before: so the record is that of the memory. */
static void record(tmwatch_attempt *a, const tmwatch_call *answer)
{
    struct bench *b = a->bench;
    const tmwatch_call *it = answer ? answer : &a->now.calls[a->cursor.place];
    bool looks = a->by->looks && it->letter == 'C' && a->now.calls[0].letter == 'R';
    uint64_t place = 0;
    uint32_t status = TMWATCH_OK;
    if (tmwatch_step_drain)
        tmwatch_step_drain();
    if (is_lost(a))
        return;
    if (b->schedule->record)
        b->schedule->record(b);
    a->is_recording = true;
    bool is_open = !b->is_closed;
    if (is_open)
        status = answer ? tmwatch_record_answer(a->recorder, a->now.calls, a->now.count, &a->cursor, it->letter, it->value, &place)
                        : tmwatch_record_next_call(a->recorder, a->now.calls, a->now.count, &a->cursor, &place);
    if (status != TMWATCH_OK)
        stop(b, status);
    else if (is_open) {
        a->stores += it->letter == 'W' || it->letter == 'N';
        b->kept[place % KEPT] = (struct kept){it->value, (uint8_t)a->thread, (uint8_t)it->register_number, (char)it->letter, looks};
        if (a->by->looks && a->now.made <= FIRST_ATTEMPTS)
            b->rejected_at = place + 1;
        a->keeps++;
    }
    atomic_store_explicit(&a->is_recording, false, memory_order_release);
}

/* Closes the record, so that nobody writes any more what the result is read from, though stuck threads may come back: then they end. */
static void close_record(struct bench *b)
{
    b->stops = b->is_closed = true;
    for (unsigned i = 0; i < MOST_THREADS; i++)
        while (b->parts[i].is_recording)
            nap(REST);
    await(&b->steps.free);
    post(&b->steps.free);
}

static void note_call(tmwatch_attempt *a)
{
    if (is_lost(a))
        return;
    record(a, NULL);
    if (a->cursor.place == 0) {
        a->before = a->bench->asked;
        if (a->bench->orders)
            tmwatch_orders_begins(a->bench->orders, a->thread);
    }
    pause_sometimes(a, 0);
}

/* Records that the attempt has ended. None follows one that has committed, or was asked to abort. */
static void end_attempt(tmwatch_attempt *a, bool has_committed)
{
    struct bench *b = a->bench;
    uint64_t committed = b->committed; /* with those of others that were recorded within the attempt, at least */
    if (committed > a->before && committed - a->before > a->foreign)
        a->foreign = committed - a->before;
    b->asked += has_committed;
    record(a, &(tmwatch_call){has_committed ? 'C' : 'A', 0, 0});
    b->committed += has_committed;
    if (b->orders)
        tmwatch_orders_ends(b->orders, a->thread);
    if (has_committed || a->has_asked)
        a->now.made = a->now.most;
    if (a->writes && (has_committed || !a->has_asked))
        atomic_fetch_or(has_committed ? &b->stored : &b->refused, a->writes);
    a->is_live = false;
    if (a->by->leave)
        a->by->leave(&b->permits);
}

/* The most events until room is asked for again: of this round, the one before, which others may still record, and a look; or of permits. */
enum { ATTEMPT_EVENTS = 4 * MOST_USES + 2, LOOK_EVENTS = 2 * MOST_REGISTERS + 2, ROOM = MOST_ATTEMPTS * (2 * ATTEMPT_EVENTS + LOOK_EVENTS) };

/* Waits for room, so that no record waits inside a transaction. */
static void wait_for_room(tmwatch_attempt *a)
{
    struct bench *b = a->bench;
    uint32_t status = TMWATCH_FULL;
    while (!b->stops && (status = tmwatch_room(a->recorder, ROOM)) == TMWATCH_FULL)
        nap(REST);
    /* The watch's 2^40 places come to their end: so do the rounds. */
    if (status == TMWATCH_SPENT)
        b->stops = true;
    else if (status != TMWATCH_OK && status != TMWATCH_FULL)
        stop(b, status);
}

bool tmwatch_begin_attempt(tmwatch_attempt *a)
{
    if (a->is_live)
        end_attempt(a, false);
    if (a->now.made == a->now.most || is_lost(a) || (a->by->enter && !a->by->enter(a)))
        return false;
    a->now.made++;
    a->tried++;
    a->is_live = true;
    a->has_called = false;
    a->writes = 0;
    a->cursor = (tmwatch_cursor)TMWATCH_CURSOR_INIT;
    /* It writes and adds other values than the one before. With addends below 2^64 - 1, hardly a sum comes twice. */
    for (tmwatch_call *call = a->now.calls; call < a->now.calls + a->now.count; call++)
        if (call->letter == 'W')
            call->value = fresh_value(a);
        else if (call->letter == 'N')
            call->value = draw(&a->addends, a->bench->plan.small ? SMALL_ADDENDS : UINT64_MAX);
    note_call(a);
    return true;
}

/* Has the memory make a call that is recorded: false if the memory has aborted. */
static bool make_call(tmwatch_attempt *a, const tmwatch_call *call)
{
    const tmwatch_memory *m = &a->bench->memory;
    unsigned reg = (unsigned)call->register_number;
    uint64_t value = 0;
    set_place(a, call->letter == 'W' ? IN_WRITE : call->letter == 'N' ? IN_ADD : IN_READ, reg);
    a->writes |= call->letter == 'R' ? 0 : 1u << reg;
    bool is_done = call->letter == 'W'   ? m->write(m->memory, a->tx, reg, call->value)
                   : call->letter == 'N' ? m->add(m->memory, a->tx, reg, call->value, &value)
                                         : m->read(m->memory, a->tx, reg, &value);
    set_place(a, m->run ? IN_RUN : OUTSIDE, 0);
    pause_sometimes(a, 0);
    if (is_done && a->bench->orders && call->letter == 'R')
        tmwatch_orders_answers(a->bench->orders, a->thread, value);
    if (is_done)
        record(a, &(tmwatch_call){call->letter == 'W' ? 'K' : 'V', 0, value});
    return is_done;
}

bool tmwatch_run_body(tmwatch_attempt *a)
{
    if (a->is_live && a->has_called)
        stop(a->bench, TMWATCH_WRONG_PHASE);
    if (!a->is_live || a->has_called)
        return false;
    a->has_called = true;
    for (size_t i = 0; i + 1 < a->now.count && !is_lost(a); i++) {
        if (i > 0)
            note_call(a);
        if (!make_call(a, &a->now.calls[i]))
            return false;
    }
    if (is_lost(a))
        return false;
    a->has_asked = a->now.calls[a->now.count - 1].letter == 'X';
    note_call(a);
    return !a->has_asked;
}

/* Makes one attempt in a memory that makes none again by itself: whether it has committed. */
static bool run_once(const tmwatch_memory *m, tmwatch_attempt *a)
{
    if (!tmwatch_begin_attempt(a))
        return false;
    set_place(a, IN_BEGIN, 0);
    if (!m->begin(m->memory, a->tx))
        return false;
    set_place(a, OUTSIDE, 0);
    bool commits = tmwatch_run_body(a);
    if (commits || a->has_asked)
        set_place(a, commits ? IN_COMMIT : IN_ABORT, 0);
    if (commits)
        return m->commit(m->memory, a->tx);
    if (a->has_asked)
        m->abort(m->memory, a->tx);
    return false;
}

/* Makes the thread's transaction, until it has ended or no attempt is left. A `run` that begins none makes none. */
static void make_transaction(tmwatch_attempt *a)
{
    const tmwatch_memory *m = &a->bench->memory;
    bool goes_on = true;
    a->now.made = 0;
    a->has_asked = a->is_put_off = false;
    while (goes_on && a->now.made < a->now.most) {
        uint64_t before = a->tried;
        set_place(a, m->run ? IN_RUN : OUTSIDE, 0);
        bool has_committed = m->run ? m->run(m->memory, a->tx, a) : run_once(m, a);
        set_place(a, OUTSIDE, 0);
        pause_sometimes(a, 0);
        if (a->is_live)
            end_attempt(a, has_committed);
        else if (m->run && has_committed)
            stop(a->bench, TMWATCH_WRONG_ANSWER);
        goes_on = a->tried > before || a->is_put_off;
        if (a->is_put_off) {
            const struct transaction held = a->now;
            a->by->look(a);
            a->now = held;
            a->has_asked = a->is_put_off = false;
        }
    }
}

/* Makes the thread's share of a round, or its next transaction by permits. */
static void make_share(tmwatch_attempt *a)
{
    bool is_mixed = draw_share(a), has_tried = true;
    while (a->left > 0 && has_tried) {
        uint64_t before = a->tried;
        draw_transaction(a);
        make_transaction(a);
        has_tried = a->tried > before;
        a->left = is_mixed ? a->left - (a->tried - before) : 0;
    }
}
