/* Shrinking: a violation with fewer threads, registers and calls, one attempt each, and a look before its round, so that the trace is that round
   alone. Each try is a process of its own, so that its memory begins anew and the run is reproducible. */

/* How many seeds, rounds and seconds the tries have, and how many run at once. A search is repeated until its result is reproducible alone. */
enum { SEEDS = 2, LAST_SEEDS = 12, LEAST_TRIED = 2000, MOST_TRIED = 12000, TIMES_TRIED = 3, AT_ONCE = 4, TRY_SECONDS = 5, TRIES_SECONDS = 30 };
enum { SEARCHES = 3 };

/* What is made smaller, in this order, and to what: the first number that still shows a violation. 0 attempts are as many as it takes. */
static const struct smaller {
    size_t to;
    uint64_t numbers[3], count; /* clang-format off */
} smaller[] = {{TO(mixed_rounds), {0}, 1}, {TO(threads), {2, 3}, 2}, {TO(blind_writes), {0}, 1}, {TO(adds), {0}, 1}, {TO(aborts), {0}, 1},
               {TO(accesses), {1, 2, 3}, 3}, {TO(registers), {1, 2, 3}, 3}, {TO(attempts), {1, 2}, 2}}; /* clang-format on */

/* A plan that is tried, and what came out. */
struct tried {
    tmwatch_plan plan;
    pid_t process;
    atomic_bool is_found;
    uint64_t digest; /* of its trace */
    tmwatch_bench_result result;
};

/* The tries of a find. */
struct tries {
    const tmwatch_memory *memory;
    uint64_t until; /* microseconds */
    struct tried *tried;
    tmwatch_plan plan, reproducer; /* the smallest so far that shows a violation, and what makes that again, by this trace */
    uint64_t digest;
};

/* Runs a plan in a process that says nothing. */
static void start_try(const struct tries *all, struct tried *it, unsigned number)
{
    const pid_t process = split();
    if (process != 0) {
        it->process = process; /* (not in the new process, which shares it) */
        return;
    }
    int none = open("/dev/null", O_WRONLY);
    dup2(none, STDOUT_FILENO);
    dup2(none, STDERR_FILENO);
    jobs = &alone;
    alone.is_repeated = true;
    it->plan.trace = it->plan.steps_file = it->plan.progress = it->plan.phases_file = NULL; /* FILEs */
    it->is_found = (!tmwatch_bench_job || tmwatch_bench_job(number, &it->plan)) &&
                   tmwatch_bench(all->memory, &it->plan, &it->result) == TMWATCH_OK && it->result.result.verdict == TMWATCH_VIOLATED &&
                   are_certain(&it->result);
    it->digest = jobs->job[own_job].digest;
    _Exit(0);
}

/* Waits for the end of a try, which an interrupt ends. */
static void await_try(const struct tried *it)
{
    for (; it->process > 0 && waitpid(it->process, NULL, WNOHANG) == 0; nap(LOOK_AFTER))
        if (jobs->is_interrupted)
            kill(it->process, SIGKILL);
}

/* Takes a plan for the smallest if it shows a violation by one of the first seeds, or by its own: by the fewest events of its round. */
static bool takes(struct tries *all, const tmwatch_plan *plan, unsigned seeds)
{
    uint64_t now = microseconds_of(CLOCK_MONOTONIC), left = seeds == 1 ? TRIES_SECONDS : all->until > now ? (all->until - now) / SECOND_US : 0;
    unsigned at_once = tmwatch_bench_job && jobs->count < AT_ONCE ? jobs->count : AT_ONCE;
    const struct tried *best = NULL;
    for (unsigned i = 0; i < seeds + at_once && left > 0 && !jobs->is_interrupted; i++) {
        struct tried *next = &all->tried[i], *last = i < at_once ? NULL : &all->tried[i - at_once];
        if (last)
            await_try(last);
        if (last && last->is_found && (!best || last->result.event < best->result.event))
            best = last;
        *next = (struct tried){.plan = *plan};
        next->plan.seed = seeds > 1 ? i + 1 : plan->seed;
        next->plan.seconds = seeds > 1 && left > TRY_SECONDS ? TRY_SECONDS : left;
        next->plan.timeout = seeds > 1 ? TRY_SECONDS : plan->timeout;
        if (i < seeds)
            start_try(all, next, i % at_once);
    }
    all->plan = best ? *plan : all->plan;
    all->reproducer = best ? best->result.reproducer : all->reproducer;
    all->digest = best ? best->digest : all->digest;
    return best;
}

static void make_one_smaller(struct tries *all, const struct smaller *it)
{
    bool is_taken = false;
    for (unsigned i = 0; i < it->count && !is_taken; i++) {
        tmwatch_plan next = all->plan;
        uint64_t *number = number_of(&next, it->to);
        if (*number <= it->numbers[i] && !(it->to == TO(attempts) && *number == 0))
            return;
        *number = it->numbers[i];
        is_taken = next.attempts <= most_of_thread(&next) && takes(all, &next, SEEDS);
    }
}

/* Looks whether what another process has shown comes again, and then, if that is wanted, for a smaller plan than that which has shown a violation,
   by three searches until one repeats alone: whether there is one. */
static bool make_smaller(const tmwatch_memory *memory, const struct job *teller, tmwatch_plan *given, bool is_wanted)
{
    const tmwatch_bench_result *found = &teller->result;
    const size_t size = (LAST_SEEDS + AT_ONCE) * sizeof(struct tried);
    struct tries all = {.memory = memory, .until = microseconds_of(CLOCK_MONOTONIC) + (uint64_t)TRIES_SECONDS * SECOND_US};
    uint64_t rounds = TIMES_TRIED * found->rounds;
    bool is_smaller = false, is_alone = false;
    all.tried = mmap(NULL, size, PROT_READ | PROT_WRITE, MAP_SHARED | MAP_ANONYMOUS, -1, 0);
    jobs->is_repeated = all.tried != MAP_FAILED &&
                        (!tmwatch_bench_computes || (takes(&all, &found->reproducer, 1) && all.digest == teller->digest));
    if (!jobs->is_repeated)
        fputs("no second run has confirmed this\n", stderr);
    for (unsigned search = 0; search < SEARCHES && !is_alone && jobs->is_repeated && is_wanted; search++) {
        all.plan = found->phase, all.reproducer = found->reproducer, all.plan.round = all.plan.event = all.plan.audit_first = 0;
        all.plan.rounds = rounds < LEAST_TRIED ? LEAST_TRIED : rounds < MOST_TRIED ? rounds : MOST_TRIED;
        memset(all.plan.start, 0, sizeof all.plan.start);
        is_smaller = takes(&all, &all.plan, SEEDS);
        for (unsigned i = 0; i < sizeof smaller / sizeof smaller[0] && is_smaller; i++)
            make_one_smaller(&all, &smaller[i]);
        if (is_smaller)
            takes(&all, &all.plan, LAST_SEEDS);
        all.plan = all.reproducer, all.plan.audit_first = 1;
        is_alone = takes(&all, &all.plan, 1);
    }
    munmap(all.tried, size);
    jobs->digest = all.digest;
    all.reproducer.trace = given->trace, all.reproducer.steps_file = given->steps_file;
    *given = is_smaller || is_alone ? all.reproducer : *given;
    return is_smaller || is_alone;
}
