/* By permits: threads run freely, each attempt by one of eight permits. */

/* Looks if no other thread has begun to since that was due. */
static void look_if_due(tmwatch_attempt *a)
{
    struct bench *b = a->bench;
    uint_least64_t due = b->next_look, attempted = b->attempted;
    if (attempted >= due && atomic_compare_exchange_strong(&b->next_look, &due, attempted + LOOK * MOST_ATTEMPTS))
        look(a);
}

/* Looks if that is due, and answers whether the thread makes another transaction. The last one to make none looks at the end. */
static bool go_on(tmwatch_attempt *a)
{
    struct bench *b = a->bench;
    if (b->stops || b->is_late || a->begun == b->plan.rounds) {
        if (atomic_fetch_add(&b->here, 1) + 1 == b->plan.threads)
            look(a);
        return false;
    }
    look_if_due(a);
    a->begun++;
    return true;
}

/* Takes a permit, so that others record seven attempts at most, unless the attempt is put off for a look that is due. */
static bool take_permit(tmwatch_attempt *a)
{
    struct bench *b = a->bench;
    a->is_put_off = a->now.made > 0 && b->attempted >= b->next_look;
    if (a->is_put_off)
        return false;
    tmwatch_permits_take(&b->permits);
    wait_for_room(a);
    bool begins = !b->stops && !b->is_late;
    b->attempted += begins;
    if (!begins)
        tmwatch_permits_give(&b->permits);
    return begins;
}

static void count_begun(const struct bench *b, tmwatch_bench_result *out)
{
    out->rounds = UINT64_MAX; /* (as many transactions as each thread has begun) */
    for (unsigned i = 0; i < b->plan.threads; i++) {
        uint64_t begun = b->parts[i].begun;
        out->rounds = begun < out->rounds ? begun : out->rounds;
    }
}

static const struct schedule by_permits = {
    .next = go_on, .pause = pause_freely, .enter = take_permit, .look = look_if_due, .leave = tmwatch_permits_give, .count = count_begun};
