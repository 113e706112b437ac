/* A plan is run in one leg, or by all schedules in several. Here is which plan each leg has.

   The first STEPS_LEGS go by steps, because what they find is reproducible. Then CYCLE legs repeat: one in rounds and one by permits, which find
   what only real processors do, and all others by steps. If the memory has no steps of its own, one leg in four goes by steps.

   If the memory calls an external store, its rounds may be slow, so legs end by time: the first ones by steps with one that has taken SLOW_LEG,
   later ones after LATER_LEG, and those in rounds or by permits after twice the time of the last one by steps. A reproducer goes by rounds.

   One leg in two has the usual numbers and another seed; in the others all is random. With libtmwatch_steps.a, one leg by steps in four has store
   buffers, one in four the C++20 memory model, and one in eight steps at plain accesses: each finds what the others can't. */
enum { CYCLE = 20, FEW_STEPS_CYCLE = 4, LEG_MICROSECONDS = SECOND_US / 10, SLOW_LEG = 5 * SECOND_US, LATER_LEG = SECOND_US };
enum { USUAL_LEGS = 2, ORDERED_LEGS = 4, PLAIN_LEGS = 8 };

/* Draws what a leg that isn't the first has in its plan, but the seed. */
static void draw_plan(tmwatch_plan *plan, uint64_t *draws)
{
    static const uint64_t pauses[] = {0, 10, 100, 1000};
    bool is_usual = draw(draws, USUAL_LEGS) == 0;
    tmwatch_plan it = usual;
    it.threads = 2 + draw(draws, 3 + 4 * draw(draws, 2));
    it.registers = 1 + draw(draws, 4 + 4 * draw(draws, 2));
    it.accesses = 1 + draw(draws, 5);
    it.writes = 30 + 20 * draw(draws, 4);
    it.adds = 20 * draw(draws, 2);
    it.aborts = draw(draws, 4) == 0 ? 52 : 12;
    it.pause = pauses[draw(draws, 4)];
    uint64_t orders = draw(draws, ORDERED_LEGS);
    bool has_plain = draw(draws, PLAIN_LEGS) == 0;
    it = is_usual ? usual : it;
    if (tmwatch_step_drain && !tmwatch_step_unwrapped() && plan->schedule == TMWATCH_STEPS) {
        it.orders = orders <= TMWATCH_CXX ? orders : it.orders;
        plan->plain |= has_plain;
    }
    *plan = filled_plan(plan, it);
}

static uint64_t schedule_of_leg(const struct session *session, uint64_t leg)
{
    uint64_t cycle = session->all.steps > 0 && !session->has_steps ? FEW_STEPS_CYCLE : CYCLE, place = (leg - STEPS_LEGS) % cycle;
    if (leg < STEPS_LEGS)
        return TMWATCH_STEPS;
    if (cycle == FEW_STEPS_CYCLE && place + 1 < cycle)
        return place % 2 == 0 || session->plan->crashes ? TMWATCH_ROUNDS : TMWATCH_PERMITS;
    return place == 0 ? TMWATCH_ROUNDS : place == cycle / 2 && !session->plan->crashes ? TMWATCH_PERMITS : TMWATCH_STEPS;
}

/* The plan of the next leg. By one schedule there is one, but after a crash. */
static tmwatch_plan next_plan(const struct session *session, uint64_t leg, uint64_t *draws)
{
    tmwatch_plan it = *session->plan;
    bool is_all = it.schedule == TMWATCH_ALL;
    uint64_t made = session->all.rounds, left = it.rounds - made, most = is_all ? LEG_ROUNDS : UINT64_MAX;
    it.schedule = is_all ? schedule_of_leg(session, leg) : it.schedule;
    it.seed = leg > 0 ? draw(draws, UINT64_MAX) : it.seed;
    if (is_all && leg > 0)
        draw_plan(&it, draws);
    else
        it = filled_plan(&it, usual);
    it.orders = it.schedule == TMWATCH_STEPS ? it.orders : TMWATCH_SEQUENTIAL;
    it.threads = it.threads > MOST_THREADS - it.crashes ? MOST_THREADS - it.crashes : it.threads;
    it.rounds = left < most ? left : most;
    it.round = (is_all || leg == 0) && it.round > made && it.round - made <= most ? it.round - made : 0;
    if (it.attempts > most_of_thread(&it))
        it.attempts = 0;
    memset(it.start, 0, sizeof it.start);
    memcpy(it.start, session->start, it.registers * sizeof it.start[0]);
    return it;
}

static uint64_t time_of_leg(const struct session *session, uint64_t schedule)
{
    if (session->plan->schedule != TMWATCH_ALL || (schedule == TMWATCH_STEPS && session->plan->round > 0))
        return 0;
    if (schedule == TMWATCH_STEPS)
        return session->is_slow ? LATER_LEG : SLOW_LEG;
    return session->asks && session->took > LEG_MICROSECONDS / 2 ? 2 * session->took : LEG_MICROSECONDS;
}

/* Notes how long a leg by steps has taken, and returns the number of the next leg. */
static uint64_t leg_after(struct session *session, uint64_t leg, const struct bench *b, uint64_t took)
{
    if (b->plan.schedule != TMWATCH_STEPS)
        return leg + 1;
    session->took = took;
    session->asks = session->asks || b->has_asked;
    session->is_slow = session->is_slow || (session->asks && took >= SLOW_LEG);
    return session->is_slow && leg < STEPS_LEGS ? STEPS_LEGS : leg + 1;
}

/* Keeps what the registers hold after a leg: whether that is known, by its last look. */
static bool keep_start(const struct bench *b, uint64_t events)
{
    bool is_known = events == 0 || b->kept[(events - 1) % KEPT].looks;
    for (unsigned reg = 0; reg < b->plan.registers && is_known; reg++)
        b->session->start[reg] = start_of_trace(b, events, UINT64_MAX, reg);
    return is_known;
}

/* Tells by which plan the end of the run is made again, and whether that is certain: then it goes by steps from the beginning. */
static void set_again(struct session *session, const tmwatch_plan *plan, uint64_t leg, const tmwatch_bench_result *out)
{
    tmwatch_bench_result *all = &session->all;
    bool is_right = !is_wrong(session->plan, out) && out->solo_rollbacks == 0 && !hangs(session);
    bool has_steps = plan->schedule == TMWATCH_STEPS && !is_right && all->crashes == 0;
    bool is_given = is_right || session->plan->schedule != TMWATCH_ALL || leg < STEPS_LEGS;
    uint64_t rounds = is_given ? all->rounds : out->rounds;
    all->reproducer = is_given ? *session->plan : *plan;
    all->phase = *plan;
    /* (the first look is of round 1) */
    if (has_steps) {
        all->reproducer.rounds = all->reproducer.round = rounds > 0 ? rounds : 1;
        all->reproducer.seconds = all->reproducer.event = 0;
        all->reproducer.audit_first = session->plan->audit_first && session->plan->round == all->reproducer.round;
    }
    all->is_deterministic = has_steps && is_given && all->stalls == 0 && all->waits == 0 && !plan->keep_going;
}

static void print_leg(FILE *file, uint64_t leg, tmwatch_plan plan)
{
    plan.seconds = 0;
    fprintf(file, "phase %" PRIu64 ": ", leg);
    tmwatch_bench_print_options(file, &plan);
    fputc('\n', file);
}

/* Runs one leg after another until the rounds or the time are over, or something is wrong. */
static uint32_t run_legs(struct session *session)
{
    const tmwatch_plan *plan = session->plan;
    tmwatch_bench_result *all = &session->all, out;
    uint64_t draws = plan->seed, leg = 0;
    uint32_t status = TMWATCH_OK;
    for (bool goes_on = true; goes_on;) {
        struct bench *b = calloc(1, sizeof *b);
        if (!b)
            return TMWATCH_NO_MEMORY;
        tmwatch_plan it = next_plan(session, leg, &draws);
        b->most_time = time_of_leg(session, it.schedule);
        b->delays = leg == 0 && session->second_runs ? &session->second_runs->delays : NULL;
        if (plan->phases_file)
            print_leg(plan->phases_file, leg + 1, it);
        uint64_t began = microseconds_of(CLOCK_MONOTONIC);
        status = run_leg(b, session, &it, &out);
        add_leg(all, &out);
        set_again(session, &it, leg, &out);
        leg = leg_after(session, leg, b, microseconds_of(CLOCK_MONOTONIC) - began);
        goes_on = status == TMWATCH_OK && (plan->schedule == TMWATCH_ALL || out.crashes > 0) && !is_wrong(plan, &out) && !b->has_no_time &&
                  !session->stuck && out.solo_rollbacks == 0 && all->rounds < plan->rounds && keep_start(b, out.result.events);
        if (!goes_on && status == TMWATCH_OK) {
            jobs->job[own_job].digest = digest_of(b, out.result);
            come_to_tell(all, is_wrong(plan, all) || hangs(session) || out.solo_rollbacks > 0);
            if (left.is_wanted && all->result.verdict == TMWATCH_VIOLATED && !are_certain(all))
                b->plan.trace = open_left();
            if (b->plan.trace)
                all->skipped = all->result.events - out.result.events + write_trace(b, out.result);
            if (plan->steps_file && (out.result.at > 0 || out.solo_rollbacks > 0))
                write_steps(b, plan->steps_file, out.rounds);
            status = session->stuck > 0 ? session->stuck : out.solo_rollbacks > 0 ? TMWATCH_NO_PROGRESS : TMWATCH_OK;
        }
        /* What is stuck still uses it. */
        if (!session->stuck)
            free(b);
    }
    return status;
}

uint32_t tmwatch_bench(const tmwatch_memory *memory, const tmwatch_plan *plan, tmwatch_bench_result *result)
{
    uint64_t now = jobs->began > 0 ? jobs->began : microseconds_of(CLOCK_MONOTONIC);
    uint32_t status = check(memory, plan);
    if (status != TMWATCH_OK)
        return status;
    struct session session = {.memory = memory, .plan = plan, .began = now, .shown = now};
    memcpy(session.start, plan->start, sizeof session.start);
    const tmwatch_plan first = next_plan(&session, 0, NULL);
    start_second_runs(&session, &first);
    status = run_legs(&session);
    end_second_runs(&session, status);
    claim(plan->progress);
    if (has_run(status))
        *result = session.all;
    end_threads(&session, session.stuck);
    return status;
}
