/* All runs of a program, one for each way to choose what the model draws and which thread goes on: what the tests of all executions share. */
static unsigned choose(unsigned below);
#define draw_below(draws, below) choose(below)
#include "program.c"
enum { MOST_CHOICES = 64, MOST_RUNS = 5000000 };

/* The choices of a run, of how many each is, and how many of them are made. The next run makes the same but for the last that can be another. */
static struct {
    bool is_running;
    unsigned long runs;
    unsigned count, made;
    struct choice {
        unsigned of, which;
    } all[MOST_CHOICES];
} choices;

/* A number below `below`. Of odds, only whether the draw is less than all or none of them matters. */
static unsigned choose(unsigned below)
{
    unsigned of = below == ODDS ? 2 : below;
    if (of == 1 || !choices.is_running)
        return 0;
    if (choices.made == MOST_CHOICES)
        abort();
    struct choice *it = &choices.all[choices.made++];
    if (choices.made > choices.count)
        *it = (struct choice){of, 0};
    choices.count = choices.made > choices.count ? choices.made : choices.count;
    return below == ODDS && it->which == 1 ? ODDS - 1 : it->which;
}

/* Begins a run. */
static void begin_choices(tmwatch_simulation *orders)
{
    choices.is_running = false;
    begin_run(orders);
    orders->stale = orders->late = 1;
    choices.is_running = true;
    choices.made = 0;
    if (choices.runs++ == MOST_RUNS)
        abort();
}

/* Goes on to the next run's choices. If there are none, counts anew. */
static bool has_next(void)
{
    while (choices.count > 0 && choices.all[choices.count - 1].which + 1 == choices.all[choices.count - 1].of)
        choices.count--;
    if (choices.count > 0)
        choices.all[choices.count - 1].which++;
    choices.runs = choices.count > 0 ? choices.runs : 0;
    return choices.count > 0;
}
