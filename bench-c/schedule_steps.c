/* The schedule `steps`: one thread runs at a time, and may yield at each step, at random by the seed alone. A round is a random walk, with many
   context switches, or goes by priorities, which starve a thread for long (Burckhardt, Kothari, Musuvathi and Nagarakatte, ASPLOS 2010). */

/* The first PROBED rounds of a leg have no stale load and no delayed store, and show whether the bench sees all that threads wait for. If it
   doesn't, what they wait for may order them, so no later round of the leg has these either. After MOST_SPIN pauses without a call, a thread is
   taken to wait, and yields at a random one of SPIN_ODDS steps: at a fixed one, a loop might always yield at the same place. */
enum { PROBED = 16, MOST_SPIN = 128, SPIN_ODDS = 4, FIRST_LENGTH = 64 /* of a round, in steps, until one is known */ };

/* Any of these threads, of which there is one. The steps are locked. */
static int any_of(struct steps *s, unsigned threads)
{
    for (uint64_t skipped = draw(&s->draws, (uint64_t)__builtin_popcount(threads)); skipped > 0; skipped--)
        threads &= threads - 1;
    return __builtin_ctz(threads);
}

/* Who of these threads runs next: by walk any, by priorities the highest; nobody if none is able to. One that waits is if no other is, since
   a thread that isn't the bench's may have freed what it waits for, if there is any. The steps are locked. */
static int choose(struct steps *s, unsigned threads)
{
    unsigned able = s->ready & threads & ~s->stuck;
    int found = NOBODY;
    able &= able & ~s->waiting ? ~s->waiting : ~s->lost;
    if (able && s->odds > 0)
        return any_of(s, able);
    for (int i = 0; i < MOST_THREADS; i++)
        if (able >> i & 1 && (found == NOBODY || s->priority[i] > s->priority[found]))
            found = i;
    return found;
}

/* Waits until this thread is the runner, or all is over. */
static void wait_turn(tmwatch_attempt *a)
{
    struct steps *s = &a->bench->steps;
    while (s->runner != (int)a->thread && !a->bench->is_over)
        await(&s->go[a->thread]);
    s->awake = (int)a->thread;
}

/* Makes another the runner, and unlocks the steps. */
static void let_go(struct steps *s, int next)
{
    s->spin = 0;
    s->runner = next;
    post(&s->free);
    if (next != NOBODY)
        post(&s->go[next]);
}

/* Locks the steps as the runner. A thread that a stall held for stuck waits for its turn first, as all others. */
static void lock_as_runner(tmwatch_attempt *a)
{
    struct steps *s = &a->bench->steps;
    await(&s->free);
    while (s->runner != (int)a->thread && !a->bench->is_over) {
        s->stuck &= ~(1u << a->thread);
        if (s->runner == NOBODY)
            s->runner = (int)a->thread;
        post(&s->free);
        wait_turn(a);
        await(&s->free);
    }
}

/* A step of this thread: in the memory with so many pauses, beside a call with none. It may hand over: to any, or to the highest, as itself. */
static void step(tmwatch_attempt *a, unsigned pauses)
{
    struct steps *s = &a->bench->steps;
    lock_as_runner(a);
    s->asks = false;
    s->step++;
    s->spin = pauses > 0 ? s->spin + pauses : 0;
    if (pauses > 0 && !a->bench->is_closed)
        s->listed[s->inner++ % LISTED] = (struct listed){s->recorded, a->caller, a->thread};
    bool hands_over = s->spin > MOST_SPIN && (pauses > MOST_SPIN || draw(&s->draws, SPIN_ODDS) == 0);
    hands_over = hands_over || (s->odds > 0 && draw(&s->draws, s->odds) == 0);
    for (unsigned i = 0; i < s->changes; i++)
        hands_over = hands_over || s->change[i] + 1 == s->step;
    if (hands_over) {
        s->priority[a->thread] = --s->lowest;
        s->spin = 0;
    }
    s->steps++;
    int next = !hands_over ? NOBODY : choose(s, s->odds > 0 ? ~(1u << a->thread) : ~0u);
    if (next == NOBODY || next == (int)a->thread) {
        post(&s->free);
        return;
    }
    s->context_switches++;
    let_go(s, next);
    wait_turn(a);
}

/* A memory of this process asks another one, which this one's debugger doesn't show. */
static atomic_bool asks_elsewhere;

bool tmwatch_external_call(void)
{
    bool is_beside = this_thread && this_thread->by->repeats;
    if (tmwatch_step_drain)
        tmwatch_step_drain();
    if (this_thread)
        this_thread->bench->has_asked = asks_elsewhere = true;
    if (is_beside)
        this_thread->bench->steps.asks = true;
    return is_beside;
}

void tmwatch_external_blocked(void)
{
    if (!this_thread || !this_thread->by->repeats)
        return;
    struct steps *s = &this_thread->bench->steps;
    if (tmwatch_step_drain)
        tmwatch_step_drain();
    lock_as_runner(this_thread);
    s->asks = false;
    s->stuck |= 1u << this_thread->thread;
    s->waits++;
    let_go(s, choose(s, ~0u));
}

static void draw_round(struct bench *b)
{
    struct steps *s = &b->steps;
    uint64_t draws;
    s->is_mixed = draw_mix(b, &draws);
    uint64_t length = s->length[s->is_mixed] / 16;
    s->ready = (1u << b->plan.threads) - 1;
    s->waiting = s->stuck = s->lost = 0;
    s->step = s->spin = 0;
    bool walks = draw(&s->draws, 2) == 0;
    s->odds = walks ? UINT64_C(2) << draw(&s->draws, 4) : 0;
    s->lowest = UINT64_C(1) << 32;
    for (unsigned i = 0; i < MOST_THREADS; i++)
        s->priority[i] = s->lowest + draw(&s->draws, 1 << 20) * MOST_THREADS + i;
    s->changes = walks ? 0 : draw(&s->draws, MOST_CHANGES);
    for (unsigned i = 0; i < s->changes; i++)
        s->change[i] = draw(&s->draws, length + length / 4 + 1);
}

__attribute__((noinline)) void tmwatch_breakpoint(void)
{
    __asm__ volatile("");
}

/* Does what is between two rounds, alone, and then begins the next one, or lets all threads end: the last thread of a round. */
static void turn_round(tmwatch_attempt *a)
{
    struct bench *b = a->bench;
    struct steps *s = &b->steps;
    uint64_t round = b->round;
    s->awake = NOBODY;
    s->has_buffers = false;
    if (round > 0)
        s->length[s->is_mixed] += s->step - s->length[s->is_mixed] / 16;
    wait_for_room(a);
    b->round = round + 1;
    end_round(a, round);
    s->starts[b->round % STARTS] = s->recorded;
    s->begun = b->round;
    bool is_ordered = b->plan.orders != TMWATCH_SEQUENTIAL && b->round > PROBED && s->stalls == 0;
    s->ordered += is_ordered;
    s->has_buffers = is_ordered && b->plan.orders == TMWATCH_X86;
    if (b->orders)
        tmwatch_orders_round(b->orders);
    if (b->orders && !is_ordered)
        tmwatch_orders_still(b->orders);
    await(&s->free);
    draw_round(b);
    let_go(s, choose(s, ~0u));
    for (unsigned i = 0; i < b->plan.threads && b->is_over; i++)
        post(&s->go[i]);
}

/* Ends the thread's part of a round, and waits for its turn in the next one, if there is any. Thread 0 begins the first one. */
static bool meet_by_steps(tmwatch_attempt *a)
{
    struct bench *b = a->bench;
    struct steps *s = &b->steps;
    if (a->uses > 0 || a->thread == 0) {
        lock_as_runner(a);
        s->ready &= ~(1u << a->thread);
        if (s->ready == 0) {
            post(&s->free);
            turn_round(a);
        } else {
            s->context_switches++;
            let_go(s, choose(s, ~0u));
        }
    }
    wait_turn(a);
    return !b->is_over;
}

/* Counts an event, before which a debugger may stop. */
static void count_event(struct bench *b)
{
    struct steps *s = &b->steps;
    uint64_t round = s->begun > 0 ? s->begun : 1; /* (the first look is of round 1) */
    if (round == b->plan.round && s->recorded + 1 - s->starts[s->begun % STARTS] == b->plan.event)
        tmwatch_breakpoint();
    s->recorded++;
}

/* The rounds up to that of the violation, which may not be the last. */
static void count_steps(const struct bench *b, tmwatch_bench_result *out)
{
    const struct steps *s = &b->steps;
    uint64_t at = out->result.at;
    out->rounds = at > 0 ? s->begun : b->round - (b->round > 0 && !hangs(b->session));
    while (at > 0 && out->rounds > 0 && s->starts[out->rounds % STARTS] >= at)
        out->rounds--;
    out->event = at > 0 ? at - s->starts[out->rounds % STARTS] : 0;
}

static const struct schedule by_steps = {.next = meet_by_steps, .pause = step, .record = count_event, .count = count_steps, .repeats = true};

/* Thread 0 is the first to run, and alone. */
static void set_steps(struct bench *b)
{
    struct steps *s = &b->steps;
    s->draws = ~b->plan.seed * apart_values;
    s->ready = 1;
    s->awake = NOBODY;
    s->length[0] = s->length[1] = 16 * FIRST_LENGTH;
    sem_init(&s->free, 0, 1);
    for (unsigned i = 0; i < MOST_THREADS; i++)
        sem_init(&s->go[i], 0, 0);
}
