/* What a bench prints. */

static void print_number(FILE *file, const char **before, const char *name, uint64_t number)
{
    fprintf(file, "%s\"%s\":%" PRIu64, *before, name, number);
    *before = ",";
}

static const char *const verdicts[] = {"opaque so far", "violated", "undecided", "malformed"};

/* Of so many attempts, one commits at least where the memory makes progress. So many stalls make a run slow, though nothing is wrong. */
enum { FEW_COMMITS = 20, MANY_STALLS = 10 };

/* Tells why a run can't show much, if nothing is wrong: in the line of the rounds by names, or by sentences. */
static void tell_untested(FILE *file, const tmwatch_bench_result *result, bool by_names)
{
    const tmwatch_counts *counts = &result->counts;
    const struct {
        const char *name;
        bool is_so;
        const char *text;
    } untested[] = {
        {"threads", result->reproducer.threads == 1, "only one thread ran, so no two transactions could overlap"},
        {"overlap", counts->none_overlapped, "no two transactions overlapped, so this run tests nothing"},
        {"stores", result->stores == 0, "nothing was written, so this run tests nothing"},
        {"commits", counts->committed == 0, "no transaction committed, so this run tests little"},
        {"aborts", counts->forced_aborts == 0,
         "the memory never aborted a transaction. Either it uses locks, or a conflict check is missing, or there were too few conflicts"},
        {"progress", result->solo_rollbacks > 0 || (counts->committed > 0 && counts->transactions / FEW_COMMITS > counts->committed),
         "nearly all transactions were rolled back, so this run tests little"},
    };
    const char *before = ",\"untested\":[";
    for (unsigned i = 0; i < sizeof untested / sizeof untested[0]; i++)
        if (untested[i].is_so && result->result.verdict == TMWATCH_OPAQUE_SO_FAR) {
            fprintf(file, by_names ? "%s\"%s\"" : "%swarning: %s\n", by_names ? before : "", by_names ? untested[i].name : untested[i].text);
            before = ",";
        }
    fputs(by_names && !before[1] ? "]" : "", file);
}

static void print_rounds(FILE *file, const tmwatch_bench_result *result)
{
    static const char *const untracked[] = {"stores", "locks", "waits", "blocks"};
    const char *next = "{", *before = ",\"untracked\":[";
    if (result->steps > 0)
        print_number(file, &next, "context_switches", result->context_switches);
    if (result->crashes > 0)
        print_number(file, &next, "crashes", result->crashes);
    if (result->delayed[0]) {
        fprintf(file, "%s\"delayed\":\"%s\"", next, result->delayed);
        next = ",";
    }
    print_number(file, &next, "max_interleaved_commits", result->max_interleaved_commits);
    if (result->race[0])
        fprintf(file, ",\"race\":\"%s\"", result->race);
    print_number(file, &next, "rounds", result->rounds);
    if (result->skipped > 0)
        print_number(file, &next, "skipped", result->skipped);
    if (result->steps > 0) {
        print_number(file, &next, "stalls", result->stalls);
        print_number(file, &next, "steps", result->steps);
    }
    tell_untested(file, result, true);
    for (unsigned i = 0; i < sizeof untracked / sizeof untracked[0]; i++)
        if (result->untracked >> i & 1) {
            fprintf(file, "%s\"%s\"", before, untracked[i]);
            before = ",";
        }
    fputs(result->untracked > 0 ? "]" : "", file);
    if (result->waits > 0)
        print_number(file, &next, "waits", result->waits);
    fputs("}\n", file);
}

/* Prints by which words the run is made again, and whether it is the same then. */
static void print_again(FILE *file, const tmwatch_bench_result *result)
{
    fprintf(file, "{\"deterministic\":%s,\"reproduce\":\"", are_certain(result) ? "true" : "false");
    tmwatch_bench_print_options(file, &result->reproducer);
    fputs("\"}\n", file);
}

static void print_lines(FILE *file, const tmwatch_bench_result *result, bool has_words)
{
    static const char *const whys[] = {"", ",\"why\":\"transactions\"", ",\"why\":\"states\"", ",\"why\":\"untracked\""};
    static const char *const names[] = {"aborted", "committed", "concurrent", "cuts", "forced_aborts", "live", "max_window", "transactions"};
    const tmwatch_result *verdict = &result->result;
    const tmwatch_counts *counts = &result->counts;
    const uint64_t numbers[] = {counts->aborted,       counts->committed, counts->concurrent, counts->cuts,
                                counts->forced_aborts, counts->live,      counts->max_window, counts->transactions};
    const char *next = "{", *first = "{";
    if (verdict->at > 0)
        print_number(file, &next, "at", verdict->at);
    print_number(file, &next, "events", verdict->events);
    fprintf(file, ",\"verdict\":\"%s\"%s}\n", verdicts[verdict->verdict], whys[verdict->why]);
    print_rounds(file, result);
    for (unsigned i = 0; i < sizeof names / sizeof names[0]; i++)
        print_number(file, &first, names[i], numbers[i]);
    fputs("}\n", file);
    if (has_words)
        print_again(file, result);
}

static const char *program_name = "";
#define WARN(...) fprintf(stderr, "warning: " __VA_ARGS__)
#define LINK "Link with 'pkg-config --libs tmwatch_%s'\n"

/* Prints the options that reproduce what is wrong. */
static void tell_again(const tmwatch_bench_result *result)
{
    bool is_deterministic = are_certain(result);
    fprintf(stderr, "to %s: %s%s", is_deterministic ? "reproduce" : "try again with the same options (this run may not come again)",
            program_name, program_name[0] ? " " : "");
    tmwatch_bench_print_options(stderr, &result->reproducer);
    fputc('\n', stderr);
    if (is_deterministic && !asks_elsewhere && result->event > 0)
        fprintf(stderr, "to stop in gdb just before the violation: add --event %" PRIu64 ", then 'break tmwatch_breakpoint'\n", result->event);
    if (result->reproducer.schedule != TMWATCH_ALL || result->phase.rounds == 0)
        return;
    fputs("options of this phase: ", stderr);
    tmwatch_bench_print_options(stderr, &result->phase);
    fputc('\n', stderr);
}

/* Tells what the orders have shown, and what the bench hasn't seen. */
static void tell_orders_shown(const tmwatch_bench_result *result, bool has_failed)
{
    const char *unwrapped = result->untracked & TMWATCH_UNTRACKED_LOCKS ? tmwatch_step_unwrapped() : NULL;
    if (result->stalls >= (has_failed ? 1 : MANY_STALLS))
        WARN("%" PRIu64 " times a thread blocked where the bench cannot see it, so this run may not be reproducible. " LINK, result->stalls,
             tmwatch_step_drain ? "steps" : "bench");
    if (unwrapped)
        WARN("the x86 and C++20 memory models were not tested, because %s is not wrapped. " LINK, unwrapped, "steps");
    if (result->untracked & TMWATCH_UNTRACKED_BLOCKS)
        WARN("stores to the heap were not delayed, because free is not wrapped. " LINK, "steps");
    if (result->result.why == TMWATCH_UNTRACKED)
        fputs("undecided: the violation may be false, because the bench did not observe all synchronization. Rerun with --orders sequential\n",
              stderr);
    fputs(result->stale_loads, stderr);
    if (result->race[0])
        fprintf(stderr, "data race (undefined behaviour in C++20): %s\n", result->race);
    if (result->delayed[0])
        WARN("C++20 allows a violation if a load is delayed past later stores: %s\n", result->delayed);
}

void tmwatch_bench_print(FILE *file, const tmwatch_bench_result *result)
{
    bool has_failed = is_wrong(&result->reproducer, result);
    print_lines(file, result, has_failed);
    /* So that what is said of it comes after it. */
    fflush(file);
    tell_untested(stderr, result, false);
    if (result->result.verdict == TMWATCH_VIOLATED && result->counts.transactions == 1)
        fprintf(stderr, "the very first read is wrong: %s?\n",
                tmwatch_bench_computes ? "did --setup set every register to 0? Is the program the store itself (--single-process)"
                                       : "are the registers initialized to plan.start");
    if (has_failed)
        tell_again(result);
    tell_orders_shown(result, has_failed);
}
