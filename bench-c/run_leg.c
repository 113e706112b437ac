/* A leg: threads run by one plan, what they record is judged, and what came out is counted. */

/* Closes the watch, and tells what came out, or the first status that wasn't to be. Threads that are stuck may still record. */
static uint32_t close_watch(struct bench *b, tmwatch_bench_result *out)
{
    uint32_t fault = b->fault, status = fault == TMWATCH_OK ? tmwatch_summary(&b->watch, &out->counts) : fault;
    if (b->session->stuck)
        return status == TMWATCH_OK ? tmwatch_report(&b->watch, &out->result) : status;
    if (status == TMWATCH_OK)
        status = tmwatch_close(&b->watch, b->recorders, b->plan.threads + b->plan.crashes, &out->result);
    for (unsigned i = 0; i < b->plan.threads + b->plan.crashes; i++)
        tmwatch_discard_recorder(&b->recorders[i]);
    tmwatch_discard(&b->watch);
    return status;
}

/* Tells what the orders of C++20 have shown: of the round that is violated or stuck, what they don't see, and a race, if they see all. */
static void tell_orders(struct bench *b, tmwatch_bench_result *out)
{
    FILE *file = fmemopen(out->stale_loads, sizeof out->stale_loads - 1, "w");
    bool is_wrong = out->result.verdict == TMWATCH_VIOLATED || hangs(b->session);
    if (!file)
        return;
    b->is_told = true;
    if (is_wrong)
        tmwatch_orders_tell(b->orders, file, b->steps.starts[out->rounds % STARTS], hangs(b->session) ? UINT64_MAX : out->result.at);
    out->untracked |= tmwatch_orders_tell_untracked(b->orders, file, is_wrong);
    fclose(file);
    if (out->untracked == 0)
        tmwatch_orders_tell_race(b->orders, out->race, sizeof out->race);
}

/* Runs a leg under a watch that is open, and closes it. */
static uint32_t run_watched(struct bench *b, tmwatch_bench_result *out)
{
    run_parts(b, 0, (unsigned)b->plan.threads);
    if (b->restart && !b->session->stuck && b->fault == TMWATCH_OK)
        run_parts(b, (unsigned)b->plan.threads, (unsigned)b->plan.threads + 1);
    uint32_t status = close_watch(b, out);
    b->schedule->count(b, out);
    out->steps = b->steps.steps;
    out->context_switches = b->steps.context_switches;
    out->stalls = b->steps.stalls;
    out->waits = b->steps.waits;
    out->crashes = b->restart != NULL;
    out->solo_rollbacks = out->result.verdict == TMWATCH_OPAQUE_SO_FAR && b->has_rejected ? b->rejected.made : 0;
    b->session->has_steps = b->session->has_steps || b->steps.inner > 0;
    /* (after threads that are stuck no leg follows, and they may still count these) */
    b->session->looked = b->session->stuck ? 0 : b->looked;
    for (unsigned i = 0; i < b->plan.threads; i++) {
        const tmwatch_attempt *a = &b->parts[i];
        uint64_t foreign = a->foreign;
        out->stores += a->stores;
        out->max_interleaved_commits = foreign > out->max_interleaved_commits ? foreign : out->max_interleaved_commits;
        out->untracked |= a->how.is_undelayed ? TMWATCH_UNTRACKED_BLOCKS : 0;
        b->session->written[i] = b->session->stuck ? 0 : a->written;
    }
    out->untracked |= out->stalls > 0 ? TMWATCH_UNTRACKED_WAITS : 0;
    out->untracked |= tmwatch_step_drain && tmwatch_step_unwrapped() ? TMWATCH_UNTRACKED_LOCKS : 0;
    if (b->orders)
        tell_orders(b, out);
    /* What isn't seen may order what was taken to be stale or delayed. */
    if (out->result.verdict == TMWATCH_VIOLATED && b->steps.ordered > 0 && out->untracked & ~(uint64_t)TMWATCH_UNTRACKED_BLOCKS) {
        out->result.verdict = TMWATCH_UNDECIDED;
        out->result.why = TMWATCH_UNTRACKED;
    }
    if (status == TMWATCH_OK && (b->session->stuck || out->solo_rollbacks > 0))
        tell_lost(b, out);
    return status;
}

static uint32_t run_leg(struct bench *b, struct session *session, const tmwatch_plan *plan, tmwatch_bench_result *out)
{
    static const struct schedule *const all[] = {[TMWATCH_ROUNDS] = &in_rounds, [TMWATCH_PERMITS] = &by_permits, [TMWATCH_STEPS] = &by_steps};
    memset(out, 0, sizeof *out);
    b->session = session;
    b->memory = *session->memory;
    b->plan = *plan;
    b->schedule = all[plan->schedule];
    b->looked = session->looked;
    set_steps(b);
    if (!start_threads(session, plan->threads + plan->crashes))
        return TMWATCH_NO_MEMORY;
    b->workers = session->started;
    bool has_weak = plan->orders != TMWATCH_SEQUENTIAL && tmwatch_orders_unmarked;
    const char *unmarked = has_weak ? tmwatch_orders_unmarked(session->memory) : NULL;
    if (unmarked) {
        b->plan.orders = TMWATCH_SEQUENTIAL;
        out->untracked = TMWATCH_UNTRACKED_LOCKS;
        snprintf(out->stale_loads, sizeof out->stale_loads,
                 "warning: the x86 and C++20 memory models were not tested, because unmarked code in %s locks or is a fence\n", unmarked);
    }
    if (b->plan.orders == TMWATCH_CXX && !(b->orders = tmwatch_orders_new(plan->seed, &b->steps.recorded, b->delays)))
        return TMWATCH_NO_MEMORY;
    tmwatch_settings settings = TMWATCH_SETTINGS(plan->registers);
    memcpy(settings.start, plan->start, sizeof settings.start);
    uint32_t status = tmwatch_open(&b->watch, b->recorders, plan->threads + plan->crashes, &settings);
    if (status == TMWATCH_OK)
        status = run_watched(b, out);
    if (!b->session->stuck)
        free(b->orders);
    return status;
}
