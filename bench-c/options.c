/* The options of a program: read into a plan, and printed from one. */

/* The words for the numbers that stand there in a plan, or null. */
static const char *const *choices_of(size_t to)
{
    static const char *const schedules[] = {"rounds", "permits", "steps", "all", NULL}, *const values[] = {"wide", "small", NULL};
    static const char *const orders[] = {"sequential", "x86", "c++", NULL}, *const races[] = {"report", "fail", NULL};
    return to == TO(schedule) ? schedules : to == TO(orders) ? orders : to == TO(races) ? races : to == TO(small) ? values : NULL;
}

/* What the words say: a plan, the names of files, or null, and what is written on standard error; and what is listed of the steps. */
struct given {
    tmwatch_plan plan;
    const char *trace, *junit;
    uint64_t jobs, shrink, phases, quiet; /* (jobs may be TMWATCH_RANDOM) */
    char *steps;
    size_t size;
    struct sigaction interrupt, end; /* what was set for SIGINT and SIGTERM */
};
#define IN(field) offsetof(struct given, field)

/* An option: its name, what it takes, or nothing, where its number or name goes in what is given, and its line of the help; or a heading there. */
struct option {
    const char *name, *takes;
    size_t to;
    const char *text;
};
#define HEADING SIZE_MAX

static const struct option options[] = {
    {"--schedule", "steps, rounds, permits, all", TO(schedule), "steps (reproducible), rounds, permits, or all (all)"},
    {"--rounds", "N", TO(rounds), "at most N rounds (100000; unlimited with --seconds)"},
    {"--seconds", "N", TO(seconds), "start no round after N seconds"},
    {"--seed", "N", TO(seed), "seed of everything random (1)"},
    {"--jobs", "1-64", IN(jobs), "parallel runs, each with its own seed (1)"},
    {"--keep-going", "", TO(keep_going), "continue after a violation"},
    {"--crashes", "", TO(crashes), "the memory calls tmwatch_bench_crash"},
    {"--timeout", "N", TO(timeout), "give up after N seconds without progress (5)"},
    {"To reproduce a violation, use the options printed after it:", "", HEADING, ""},
    {"--round", "N", TO(round), "stop after round N; call tmwatch_breakpoint before it"},
    {"--event", "N", TO(event), "with --round: call it before this event instead"},
    {"--audit-first", "", TO(audit_first), "with --round: start the trace at that round"},
    {"Transactions (with --schedule all, random after the first 1000 rounds):", "", HEADING, ""},
    {"--threads", "1-8", TO(threads), "threads (4)"},
    {"--registers", "1-8", TO(registers), "registers (3)"},
    {"--accesses", "1-16", TO(accesses), "accesses of a transaction, each to a random register (3)"},
    {"--writes", "0-100", TO(writes), "percent of reads followed by a write (50)"},
    {"--adds", "0-100", TO(adds), "percent of accesses that are adds (20)"},
    {"--aborts", "0-100", TO(aborts), "percent of transactions that abort on purpose (12)"},
    {"--pause", "0-1048576", TO(pause), "longest random delay around a call, in spins (100)"},
    {"--mixed-rounds", "0-100", TO(mixed_rounds), "percent of rounds with one long transaction (50)"},
    {"--blind-writes", "0-100", TO(blind_writes), "percent of transactions that only write (10)"},
    {"--attempts", "N", TO(attempts), "most attempts per transaction (all that fit a window)"},
    {"Memory model (link libtmwatch_steps.a):", "", HEADING, ""},
    {"--orders", "sequential, x86, c++", TO(orders), "sequential, x86 or c++ (with all: each, in some phases)"},
    {"--plain", "", TO(plain), "plain accesses are steps too"},
    {"--races", "report, fail", TO(races), "on a data race: report, or fail with status 1 (report)"},
    {"Values and output:", "", HEADING, ""},
    {"--values", "small, wide", TO(small), "small, or wide (wide; tmwatch-bench: small)"},
    {"--trace", "FILE", IN(trace), "end of the run; also FILE.report and FILE.steps"},
    {"--junit", "FILE", IN(junit), "write a JUnit report"},
    {"--shrink", "", IN(shrink), "shrink a reproducible violation"},
    {"--print-phases", "", IN(phases), "options of each phase on standard error"},
    {"--quiet", "", IN(quiet), "no progress on a terminal"},
    {NULL, "", HEADING, NULL},
};

#define FAIL(fault, ...) (puts("{\"fault\":\"" fault "\"}"), fflush(stdout), fprintf(stderr, __VA_ARGS__), 4)
#define REFUSE(...) (FAIL("usage", __VA_ARGS__) ? (fputs("\nTry --help.\n", stderr), 4) : 0)

/* Reads an option: 0, or the exit status. A number has to fit, and a choice stands for its number. */
static int read_option(struct given *given, const struct option *option, char **words)
{
    if (option->to == HEADING || (option->takes[0] && !words[1]))
        return REFUSE("%s: %s", words[0], option->takes[0] ? "the value is missing" : "no such option");
    const char *const *choices = choices_of(option->to);
    uint64_t *number = number_of(given, option->to), least = 0, most = UINT64_MAX;
    if (strcmp(option->takes, "FILE") == 0)
        *(const char **)number = words[1];
    else if (!option->takes[0])
        *number = 1;
    else if (choices) {
        for (*number = 0; choices[*number] && strcmp(words[1], choices[*number]) != 0; ++*number)
            ;
        return choices[*number] ? 0 : REFUSE("%s: '%s' is not one of %s", words[0], words[1], option->takes);
    } else {
        errno = 0;
        *number = strtoull(words[1], NULL, 10);
        if (!words[1][0] || words[1][strspn(words[1], "0123456789")] != '\0' || errno != 0)
            return REFUSE("%s: '%s' is not a number", words[0], words[1]);
        if (sscanf(option->takes, "%" SCNu64 "-%" SCNu64, &least, &most) == 2 && (*number < least || *number > most))
            return REFUSE("%s: %s is not in %" PRIu64 " to %" PRIu64, words[0], words[1], least, most);
    }
    return 0;
}

/* Reads the words: 0, or the exit status. A time counts alone, without --rounds; and so does a round to end with. */
static int read_words(struct given *given, char **words)
{
    tmwatch_plan *plan = &given->plan;
    int status = 0;
    bool has_rounds = false;
    while (words[0] && status == 0) {
        const struct option *option = options;
        while (option->name && strcmp(option->name, words[0]) != 0)
            option++;
        status = read_option(given, option, words);
        has_rounds = has_rounds || option->to == TO(rounds);
        words += status != 0 || !option->takes[0] ? 1 : 2;
    }
    plan->rounds = plan->round > 0 ? plan->round : plan->seconds > 0 && !has_rounds ? UINT64_MAX : plan->rounds;
    return status;
}

void tmwatch_bench_print_options(FILE *file, const tmwatch_plan *plan)
{
    tmwatch_plan it = *plan, first = TMWATCH_PLAN;
    const char *before = "";
    for (const struct option *option = options; option->name; option++) {
        size_t to = option->to < sizeof *plan ? option->to : TO(timeout);
        uint64_t number = *number_of(&it, to);
        bool is_left_out = to == TO(rounds)   ? plan->round > 0 || plan->rounds == UINT64_MAX
                           : to == TO(orders) ? plan->schedule != TMWATCH_ALL && plan->orders == TMWATCH_SEQUENTIAL
                                              : to == TO(timeout);
        if (is_left_out || (number == *number_of(&first, to) && to != TO(seed)))
            continue;
        fprintf(file, "%s%s", before, option->name);
        if (choices_of(to))
            fprintf(file, " %s", choices_of(to)[number]);
        else if (option->takes[0])
            fprintf(file, " %" PRIu64, number);
        before = " ";
    }
}
