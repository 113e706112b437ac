/* Load buffering in the C++20 memory model (instrumented/orders/delayed.c). If a run is opaque so far, second runs repeat each load that its first
   leg has found, up to the store: then the load's answer comes after that store, with what its thread has recorded since. A memory can't be put
   back to its initial state, so a process is forked before the run, and waits. Each second run is a child of it. */

/* A second run takes so many seconds of the processors at most. */
enum { MOST_TRACE = 1 << 19, MOST_SECONDS = 5 };

/* What these processes share. */
struct second_runs {
    sem_t goes;
    pid_t process; /* that waits */
    tmwatch_delays delays;
    bool is_violated;
    char trace[MOST_TRACE];
};

/* Judges the record up to the store, with the load's answer after that, by this value; and writes it as a trace. */
static uint32_t judge_moved(struct bench *b, struct second_runs *runs, uint64_t value)
{
    const tmwatch_delays *delays = &runs->delays;
    uint64_t from = first_of_trace(b, delays->stored, b->steps.recorded, true), place;
    tmwatch_settings settings = TMWATCH_SETTINGS(b->plan.registers);
    tmwatch_result result = {0, 0, TMWATCH_UNDECIDED, 0};
    for (unsigned reg = 0; reg < b->plan.registers; reg++)
        settings.start[reg] = start_of_trace(b, from, delays->stored, reg);
    b->plan.trace = fmemopen(runs->trace, sizeof runs->trace, "w");
    if (!b->plan.trace || tmwatch_open(&b->watch, b->recorders, b->plan.threads, &settings) != TMWATCH_OK)
        return result.verdict;
    write_header(b, from, delays->stored);
    b->kept[delays->answered % KEPT].value = value;
    for (unsigned is_late = 0; is_late < 2; is_late++)
        for (uint64_t i = from; i < delays->stored; i++) {
            const struct kept *it = &b->kept[i % KEPT];
            if ((i >= delays->answered && it->thread == delays->made->loader) != is_late)
                continue;
            write_event(b->plan.trace, it);
            if (tmwatch_record(&b->recorders[it->thread], (uint32_t)it->letter, it->reg, it->value, &place) != TMWATCH_OK ||
                tmwatch_pump(&b->watch, 1, &place) != TMWATCH_OK)
                return result.verdict;
        }
    bool is_written = fclose(b->plan.trace) == 0;
    return tmwatch_close(&b->watch, b->recorders, b->plan.threads, &result) == TMWATCH_OK && is_written ? result.verdict : TMWATCH_UNDECIDED;
}

/* Whether the record is violated by the load's answer, and not by its first one: else others have read what the load's thread stored later. */
static bool is_violated_by_load(struct bench *b, struct second_runs *it)
{
    const tmwatch_delay *made = it->delays.made;
    return judge_moved(b, it, made->before) == TMWATCH_OPAQUE_SO_FAR && judge_moved(b, it, made->value) == TMWATCH_VIOLATED;
}

/* Makes a second run in this process, whose session is as before the run: whether the record that would be is violated. (One that is stuck
   leaves its watch open, so that none is judged.) */
static bool make_second_run(struct session *session, tmwatch_plan plan)
{
    static struct bench bench;
    struct second_runs *it = session->second_runs;
    tmwatch_bench_result out;
    plan.rounds = it->delays.made->round - 1;
    plan.seconds = 0;
    plan.timeout = 1;
    plan.progress = NULL;
    it->delays.answered = it->delays.stored = 0;
    bench.delays = &it->delays;
    bool is_whole = run_leg(&bench, session, &plan, &out) == TMWATCH_OK && !out.untracked && !out.race[0];
    return is_whole && it->delays.answered > 0 && it->delays.answered < it->delays.stored && is_violated_by_load(&bench, it);
}

/* Waits until the run is over, and makes second runs until the record of one would be violated. */
static void make_second_runs(struct session *session, const tmwatch_plan *first)
{
    struct second_runs *it = session->second_runs;
    int none = open("/dev/null", O_WRONLY);
    dup2(none, STDOUT_FILENO);
    dup2(none, STDERR_FILENO);
    await(&it->goes);
    setrlimit(RLIMIT_CPU, &(struct rlimit){MOST_SECONDS, MOST_SECONDS});
    for (unsigned i = 0; i < it->delays.count && !it->is_violated && !jobs->is_interrupted; i++) {
        it->delays.made = &it->delays.found[i];
        pid_t child = fork();
        if (child == 0) {
            it->is_violated = make_second_run(session, *first);
            _exit(0);
        }
        waitpid(child, NULL, 0);
    }
    _exit(0);
}

/* Splits off the process of the second runs, if the first leg has the orders of C++20. */
static void start_second_runs(struct session *session, const tmwatch_plan *first)
{
    if (first->orders != TMWATCH_CXX || first->crashes > 0 || tmwatch_orders_unmarked(session->memory))
        return;
    struct second_runs *it = mmap(NULL, sizeof *it, PROT_READ | PROT_WRITE, MAP_SHARED | MAP_ANONYMOUS, -1, 0);
    if (it == MAP_FAILED)
        return;
    session->second_runs = it;
    pid_t process = sem_init(&it->goes, 1, 0) == 0 ? split() : -1;
    if (process == 0)
        make_second_runs(session, first);
    it->process = process;
}

/* Has the second runs made if nothing is wrong and all is seen, and tells what they have shown. */
static void end_second_runs(struct session *session, uint32_t status)
{
    struct second_runs *it = session->second_runs;
    tmwatch_bench_result *all = &session->all;
    if (!it)
        return;
    if (status != TMWATCH_OK || is_wrong(session->plan, all) || all->untracked || all->race[0] || all->waits || session->asks ||
        jobs->is_interrupted)
        it->delays.count = 0;
    post(&it->goes);
    if (it->process > 0)
        await_process(it->process);
    if (it->is_violated)
        tmwatch_orders_tell_delay(it->delays.made, all->delayed, sizeof all->delayed);
    if (it->is_violated && session->plan->steps_file)
        fputs(it->trace, session->plan->steps_file);
    /* (threads that are stuck may still use it) */
    if (!session->stuck)
        munmap(it, sizeof *it);
}
