/* The watchdog of the schedule `steps`. If the running thread is blocked by what the bench doesn't see, as by a lock that another thread holds,
   another one runs too. Time is the processor's, so that neither load nor a debugger is taken for that.

   The running thread may make no step for so many looks that find it asleep, or so many microseconds of a processor, of which a look counts
   MOST_EACH at most, because a virtual processor's clock goes on while it is stopped. After two stalls no run is reproducible, so few suffice. */
enum { LOOK_MICROSECONDS = 1000, MOST_SLEEPS = 50, MOST_USED = 250000, MOST_EACH = 5000, FEW_STALLS = 2, LATER_SLEEPS = 5, LATER_USED = 5000 };

/* Whether a thread sleeps, as far as the system tells. */
static bool is_asleep(int tid)
{
    char name[64], line[256] = "";
    snprintf(name, sizeof name, "/proc/self/task/%d/stat", tid);
    FILE *file = fopen(name, "r");
    const char *after = file && fgets(line, sizeof line, file) ? strrchr(line, ')') : NULL;
    if (file)
        fclose(file);
    return after && after[1] == ' ' && after[2] == 'S';
}

/* Whether the runner has made no step for too long. */
static bool is_blocked(struct bench *b, int runner, uint64_t steps)
{
    struct steps *s = &b->steps;
    struct watchdog *w = &b->watchdog;
    bool is_new = runner != w->runner || steps != w->steps;
    w->runner = runner != NOBODY && s->awake == runner && !s->asks ? runner : NOBODY;
    w->steps = steps;
    w->computes = false;
    clockid_t clock = CLOCK_MONOTONIC;
    if (w->runner == NOBODY || pthread_getcpuclockid(b->session->workers[runner]->thread, &clock) != 0)
        return false;
    uint64_t used = microseconds_of(clock), passed = used - w->clock;
    bool is_late = s->stalls >= FEW_STALLS;
    w->sleeps = !is_new && is_asleep(s->tid[runner]) ? w->sleeps + 1 : 0;
    w->used = is_new ? 0 : w->used + (passed < MOST_EACH ? passed : MOST_EACH);
    w->clock = used;
    w->computes = !is_new && w->sleeps == 0;
    return w->sleeps >= (is_late ? LATER_SLEEPS : MOST_SLEEPS) || w->used >= (is_late ? LATER_USED : MOST_USED);
}

/* Ends all delays, since a thread waits untracked: nothing is stale or delayed any more. The steps are locked. */
static void end_delays(struct bench *b)
{
    b->steps.stalls++;
    b->steps.has_buffers = false;
    for (unsigned i = 0; i < b->plan.threads && tmwatch_step_drain_of; i++)
        tmwatch_step_drain_of(&b->parts[i].how, 0);
    if (b->orders)
        tmwatch_orders_still(b->orders);
}

/* Looks at the runner. If it is blocked, another one goes on, and what is delayed comes out, which may end its wait. */
static void watch_steps(struct bench *b, uint64_t now)
{
    struct steps *s = &b->steps;
    uint64_t steps = s->steps;
    int runner = s->runner;
    if (b->is_over || now - b->watchdog.looked < LOOK_MICROSECONDS)
        return;
    b->watchdog.looked = now;
    if (!is_blocked(b, runner, steps))
        return;
    await(&s->free);
    bool is_same = s->runner == runner && s->steps == steps && s->awake == runner;
    int next = is_same ? choose(s, ~(1u << runner)) : NOBODY;
    if (next != NOBODY || (is_same && b->parts[runner].how.buffered > 0))
        end_delays(b);
    if (next != NOBODY) {
        s->stuck |= 1u << runner;
        let_go(s, next);
    } else
        post(&s->free);
}
