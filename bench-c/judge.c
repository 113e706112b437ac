/* The judge: it judges what the threads record until they end, the time is up, or nothing comes for too long. */

void tmwatch_bench_stop(void)
{
    jobs->is_interrupted = true;
}

/* Why the memory can't answer, or null. */
static _Atomic(const char *) failure;

void tmwatch_bench_fail(const char *why)
{
    const char *none = NULL;
    atomic_compare_exchange_strong(&failure, &none, why);
    for (;;)
        pause();
}

/* Judges some of what is recorded: how many events. Another verdict than opaque so far ends the rounds. */
static uint64_t judge_some(struct bench *b)
{
    tmwatch_result result = {0, 0, 0, 0};
    uint64_t judged = 0;
    uint32_t status;
    if ((status = tmwatch_pump(&b->watch, 1024, &judged)) != TMWATCH_OK || (status = tmwatch_report(&b->watch, &result)) != TMWATCH_OK)
        stop(b, status);
    if (result.verdict != TMWATCH_OPAQUE_SO_FAR && !b->plan.keep_going)
        b->stops = true;
    return judged;
}

/* Of the time since the last look, MOST_WAITED counts at most, and while the running thread computes, what the process was given: neither a debugger
   nor a load is a wait. No time counts for MOST_STEPS or stalls without an event, because each thread tries until it is taken to wait. Once a call
   has taken long, time in which another process computes or waits for a disk counts a tenth. */
enum { MOST_WAITED = SECOND_US / 200, INTERRUPTED_WAIT = SECOND_US / 2, MOST_STEPS = MOST_THREADS * MOST_SPIN };
enum { COUNTED_PART = 10, TAKES_LONG = SECOND_US / 10 };

static void note_progress(struct bench *b, uint64_t now)
{
    const tmwatch_bench_result *all = &b->session->all;
    tmwatch_counts counts;
    tmwatch_result result;
    jobs->job[own_job].counts[0] = all->rounds + (b->round > 0 ? b->round - 1 : 0);
    if (!b->plan.progress || now - b->session->shown < SHOWN_EACH || tmwatch_summary(&b->watch, &counts) != TMWATCH_OK ||
        tmwatch_report(&b->watch, &result) != TMWATCH_OK)
        return;
    b->session->shown = now;
    jobs->job[own_job].counts[1] = all->result.events + result.events;
    jobs->job[own_job].counts[2] = all->counts.forced_aborts + counts.forced_aborts;
    if (jobs == &alone)
        show_progress(b->plan.progress);
}

/* Judges until all threads have ended, or nothing has come for too long, and then what is left. Meanwhile it looks whether a time is up. */
static void judge(struct bench *b)
{
    uint64_t began = microseconds_of(CLOCK_MONOTONIC), looked = began, used = 0, moved = 0, steps = 0, steps_moved = 0;
    uint64_t last = began, counted = 0;
    while (b->ended < b->running && !b->session->stuck) {
        uint64_t judged = judge_some(b);
        if (judged == 0)
            nap(b->has_asked ? LONG_REST : REST);
        uint64_t now = microseconds_of(CLOCK_MONOTONIC), passed = now - looked, moved_before = moved, steps_before = steps;
        uint64_t given = microseconds_of(CLOCK_PROCESS_CPUTIME_ID) - used;
        looked = now, used += given;
        watch_steps(b, now);
        passed = b->watchdog.computes && !b->is_over && given < passed ? given : passed;
        moved = b->round + b->attempted + b->ended;
        steps = b->steps.steps + b->steps.stalls;
        bool has_moved = judged > 0 || moved != moved_before;
        steps_moved = has_moved ? steps : steps_moved;
        bool steps_on = steps != steps_before && steps - steps_moved < MOST_STEPS;
        passed = passed < MOST_WAITED ? passed : MOST_WAITED;
        bool computes = b->idle > TAKES_LONG && tmwatch_bench_computes && tmwatch_bench_computes();
        last = has_moved ? now : last;
        counted = has_moved || steps_on ? 0 : counted + (computes ? passed / COUNTED_PART : passed);
        b->idle = has_moved || steps_on ? 0 : b->idle + passed;
        b->session->stuck = failure                       ? TMWATCH_FAILED
                            : !jobs->is_interrupted       ? (b->plan.timeout > 0 && counted / SECOND_US >= b->plan.timeout ? TMWATCH_HANG : 0)
                            : b->idle >= INTERRUPTED_WAIT ? TMWATCH_INTERRUPTED
                                                          : 0;
        note_progress(b, now);
        b->has_no_time = jobs->is_interrupted || (b->plan.seconds > 0 && (now - b->session->began) / SECOND_US >= b->plan.seconds);
        b->is_late = b->has_no_time || (b->most_time > 0 && (!b->schedule->repeats || b->has_asked) && now - began >= b->most_time);
    }
    if (b->has_asked && b->idle >= SECOND_US)
        b->idle = looked - last;
    if (b->session->stuck)
        close_record(b);
    while (judge_some(b) > 0)
        ;
}

/* Tells how the memory has lost progress: why it can't answer, where each thread is that is stuck, or which transaction was rolled back. After an
   interrupt, where each thread is goes with the verdict, as what orders have shown. */
static void tell_lost(struct bench *b, tmwatch_bench_result *out)
{
    static const char *const places[] = {"waiting for the other threads", "begin", "read", "write", "add", "commit", "abort", "run"};
    FILE *file = b->session->stuck == TMWATCH_INTERRUPTED ? fmemopen(out->stale_loads, sizeof out->stale_loads - 1, "a") : stderr;
    if (!file)
        return;
    if (file == stderr)
        claim(b->plan.progress);
    if (failure)
        fprintf(file, "%s\n", failure);
    else if (!b->session->stuck) {
        const tmwatch_call *call = b->rejected.calls;
        fprintf(file, "no progress: thread %u ran alone, but its ", b->rejected_thread);
        if (call->letter == 'W')
            fprintf(file, "write to register %u", (unsigned)call->register_number);
        fprintf(file, "%s was rolled back %" PRIu64 " times. Was a lock or a reader flag not released%s?\n",
                call->letter == 'W' ? "" : "read of all registers", b->rejected.made, call->letter == 'W' ? "" : ", or did a clock wrap");
    } else if (file != stderr)
        fputs("interrupted: no event for half a second\n", file);
    else
        fprintf(file, "hang: no event for %" PRIu64 " seconds (--timeout)\n", b->idle / SECOND_US);
    for (unsigned i = 0; i < b->plan.threads && b->session->stuck && !failure; i++) {
        unsigned inside = b->parts[i].inside, place = inside % 256;
        fprintf(file, "thread %u: %s", i, places[place]);
        if (place == IN_READ || place == IN_WRITE || place == IN_ADD)
            fprintf(file, "(register %u)", inside / 256);
        fputs(place == OUTSIDE ? "\n" : " has not returned\n", file);
    }
    if (file != stderr)
        fclose(file);
}
