/* The threads of a session, from their start to their end. In each leg the first ones have a part. */

/* Makes the thread's part of a leg, once all threads of it have come. */
static void make_part(tmwatch_attempt *a)
{
    struct bench *b = a->bench;
    this_thread = a;
    b->steps.tid[a->thread] = (int)syscall(SYS_gettid); /* (the watchdog looks at this) */
    set_accesses(a);
    b->come++;
    while (b->come < b->running)
        sched_yield();
    /* (after its crash, the memory starts again, and then it is looked at) */
    if (b->restart) {
        b->restart(b->memory.memory);
        b->refused = 0;
        b->stops = false;
        look(a);
        b->stops = true;
    } else
        while (b->schedule->next(a))
            make_share(a);
    this_thread = NULL;
    b->ended++;
}

static void *work(void *argument)
{
    struct worker *worker = argument;
    for (await(&worker->goes); worker->attempt; await(&worker->goes))
        make_part(worker->attempt);
    return NULL;
}

/* Starts what threads a leg of so many lacks: whether it has all. Bytes that the memory has for one lie apart, so that none slows another. */
static bool start_threads(struct session *session, uint64_t threads)
{
    for (; session->started < threads; session->started++) {
        struct worker *it = calloc(1, sizeof *it + session->memory->tx_size + APART);
        if (!it || sem_init(&it->goes, 0, 0) != 0 || pthread_create(&it->thread, NULL, work, it) != 0) {
            free(it);
            return false;
        }
        session->workers[session->started] = it;
    }
    return true;
}

/* Has these threads of the leg make their part, and judges what they record. */
static void run_parts(struct bench *b, unsigned from, unsigned to)
{
    b->come = b->ended = 0;
    b->running = to - from;
    for (unsigned i = from; i < to; i++) {
        struct worker *it = b->session->workers[i];
        uint64_t draws = b->plan.seed * MOST_THREADS + i;
        it->attempt = &b->parts[i]; /* clang-format off */
        *it->attempt = (tmwatch_attempt){.bench = b, .recorder = &b->recorders[i], .thread = i, .by = b->schedule, .tx = it->tx, .draws = draws,
                                         .addends = ~draws, .pauses = draws ^ apart_rounds, .written = b->session->written[i]}; /* clang-format on */
        post(&it->goes);
    }
    judge(b);
}

/* Waits for the threads' end. Those that are stuck, and what they use, stay. */
static void end_threads(const struct session *session, bool are_stuck)
{
    for (unsigned i = 0; i < session->started; i++) {
        struct worker *it = session->workers[i];
        if (are_stuck) {
            pthread_detach(it->thread);
            continue;
        }
        it->attempt = NULL;
        post(&it->goes);
        pthread_join(it->thread, NULL);
        free(it);
    }
}
