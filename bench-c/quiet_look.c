/* A look: a thread runs transactions while no other does. One reads all registers, so that their values are known, whatever serial order the
   transactions before have. Before it, each register is written that attempts since the last look wanted to write and none committed. A look that
   is rolled back is retried: if that happens again and again, as with a lock that is never released, the memory makes no progress. */

/* A look ends without success after FEW attempts that took the plan's patience, or after so many events that the look before it is still stored.
   The first FAST_EVENTS come as fast as they can, because rollbacks may be chance; the others take the patience, because a time may end them. */
enum { FEW = 200, FAST_EVENTS = MOST_LOOKED / 2, LONGEST_NAP = SECOND_US / 10 };

/* Whether a look's transaction is attempted, or again. Once the time of all is up, that it is rolled back says nothing of the memory. */
static bool enter_alone(tmwatch_attempt *a)
{
    struct bench *b = a->bench;
    if (b->stops || (b->has_no_time && a->now.made > 0))
        return false;
    uint64_t events = a->keeps - a->look_from, slow = events > FAST_EVENTS ? events - FAST_EVENTS : 0;
    uint64_t timeout = b->plan.timeout * SECOND_US, passed = microseconds_of(CLOCK_MONOTONIC) - a->look_began;
    uint64_t due = timeout / (MOST_LOOKED - FAST_EVENTS) * slow;
    if (events < MOST_LOOKED && (timeout == 0 || a->now.made < FEW || passed < timeout)) {
        if (due > passed)
            nap(due - passed < LONGEST_NAP ? (long)(due - passed) : LONGEST_NAP);
        wait_for_room(a);
        b->attempted += !b->stops;
        return !b->stops;
    }
    b->rejected = a->now;
    b->rejected_thread = a->thread;
    b->has_rejected = b->stops = true;
    return false;
}

static const struct schedule in_look = {.enter = enter_alone, .looks = true};

/* Makes the calls alone, which are to commit. Nobody else makes an attempt by a permit until they have. */
static void make_alone(tmwatch_attempt *a)
{
    add_call(a, 'T', 0);
    a->now.most = UINT64_MAX;
    a->look_from = a->keeps;
    a->look_began = microseconds_of(CLOCK_MONOTONIC);
    tmwatch_permits_take_all(&a->bench->permits);
    make_transaction(a);
    tmwatch_permits_give(&a->bench->permits);
}

static void look(tmwatch_attempt *a)
{
    struct bench *b = a->bench;
    unsigned refused = atomic_exchange(&b->refused, 0), stored = atomic_exchange(&b->stored, 0);
    a->by = &in_look;
    for (uint64_t reg = 0; reg < b->plan.registers && !b->stops; reg++) {
        a->now.count = 0;
        add_call(a, 'W', reg);
        if (refused & ~stored & 1u << reg)
            make_alone(a);
    }
    a->now.count = 0;
    for (uint64_t reg = 0; reg < b->plan.registers; reg++)
        add_call(a, 'R', reg);
    if (!b->stops)
        make_alone(a);
    a->by = b->schedule;
}
