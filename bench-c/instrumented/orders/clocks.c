/* Clocks: what a thread knows of all others, and what is drawn. */

enum { THREADS = 8, RELAXED = __ATOMIC_RELAXED, RELEASE = __ATOMIC_RELEASE, SEQUENTIAL = __ATOMIC_SEQ_CST };

/* A step of each thread, the first of which is 1; or 0. */
struct clock {
    uint32_t at[THREADS];
};

/* Up to which steps a thread knows all; what an acquire fence adds to that; and what a relaxed store releases, since a release fence. And of
   each thread the last sequentially consistent fence that it knows, as looked up when it knew so much. Its attempts are counted. */
struct view {
    struct clock knows, loaded, fenced, fences, looked_up;
    uint32_t attempts;
};

static void join(struct clock *to, const struct clock *of)
{
    for (unsigned i = 0; i < THREADS; i++)
        to->at[i] = to->at[i] > of->at[i] ? to->at[i] : of->at[i];
}

/* Whether one of these steps is among those up to the others. */
static bool is_within(const struct clock *steps, const struct clock *up_to)
{
    unsigned found = 0;
    for (unsigned i = 0; i < THREADS; i++)
        found |= steps->at[i] - 1 < up_to->at[i]; /* (0 - 1 is more than any) */
    return found;
}

/* Consume is acquire. */
static bool acquires(int order)
{
    return order != RELAXED && order != RELEASE;
}

static bool releases(int order)
{
    return order >= RELEASE;
}

#ifndef draw_below /* or a test makes each choice */
/* A number below `below` (Steele, Lea and Flood, OOPSLA 2014). */
static uint32_t draw_below(uint64_t *draws, uint32_t below)
{
    uint64_t word = *draws += 0x9E3779B97F4A7C15;
    word = (word ^ word >> 30) * 0xBF58476D1CE4E5B9;
    word = (word ^ word >> 27) * 0x94D049BB133111EB;
    return (uint32_t)((word >> 32) * below >> 32);
}
#endif
