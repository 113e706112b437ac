/* What the objects call that are linked with the memory (instrumented/step.h). */

enum { NO_TASKS = 2 /* links of the system's folder of a process's threads, without any */ };

static void set_accesses(tmwatch_attempt *a)
{
    tmwatch_step_how *how = &a->how;
    pthread_attr_t of;
    void *stack;
    size_t size;
    how->has_buffers = &a->bench->steps.has_buffers;
    how->has_plain = a->bench->plan.plain > 0;
    how->draws = ~a->pauses;
    how->own[1] = (uintptr_t)a->tx;
    how->own_end[1] = how->own[1] + a->bench->memory.tx_size;
    if (pthread_getattr_np(pthread_self(), &of) != 0) {
        stop(a->bench, TMWATCH_NO_MEMORY);
        return;
    }
    pthread_attr_getstack(&of, &stack, &size);
    how->own[0] = (uintptr_t)stack;
    how->own_end[0] = how->own[0] + size;
    pthread_attr_destroy(&of);
}

tmwatch_step_how *tmwatch_step_accesses(void)
{
    return this_thread ? &this_thread->how : NULL;
}

bool tmwatch_step_is_run(void)
{
    return this_thread && this_thread->bench->steps.awake == (int)this_thread->thread;
}

tmwatch_simulation *tmwatch_step_orders(void)
{
    bool is_simulated = this_thread && this_thread->bench->orders && !this_thread->bench->is_told && tmwatch_step_is_run();
    return is_simulated ? this_thread->bench->orders : NULL;
}

enum tmwatch_step_waited tmwatch_step_wait(const volatile void *lock, bool is_for_signal)
{
    struct steps *s = &this_thread->bench->steps;
    unsigned own = 1u << this_thread->thread;
    struct stat of; /* (nobody else can send a signal if the process has no thread but the bench's, which the judge has begun, and the judge) */
    bool is_lost = is_for_signal && stat("/proc/self/task", &of) == 0 && of.st_nlink == NO_TASKS + this_thread->bench->workers + 1;
    lock_as_runner(this_thread);
    int next = choose(s, ~own);
    if (next == NOBODY && !is_lost) {
        post(&s->free);
        return TMWATCH_STEP_ALONE;
    }
    s->waiting |= own;
    s->lost |= is_lost ? own : 0;
    s->lock[this_thread->thread] = lock;
    s->context_switches++;
    let_go(s, next);
    wait_turn(this_thread);
    lock_as_runner(this_thread);
    bool is_free = !(s->waiting & own);
    s->waiting &= ~own;
    s->lost &= s->waiting;
    post(&s->free);
    return is_free ? TMWATCH_STEP_FREED : TMWATCH_STEP_OTHERS;
}

void tmwatch_step_free(const volatile void *lock, bool is_for_one)
{
    struct steps *s = &this_thread->bench->steps;
    unsigned freed = 0;
    lock_as_runner(this_thread);
    for (unsigned i = 0; i < MOST_THREADS; i++)
        freed |= s->lock[i] == lock ? s->waiting & 1u << i : 0;
    s->waiting &= ~(is_for_one && freed ? 1u << any_of(s, freed) : freed);
    s->lost &= s->waiting;
    post(&s->free);
}
