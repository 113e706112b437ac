/* A program of one bench. */

#ifndef TMWATCH_VERSION
#define TMWATCH_VERSION "(no release)"
#endif

/* The exit status, once standard output is written. */
static int end_output(int status)
{
    if (fflush(stdout) == 0 && !ferror(stdout))
        return status;
    fputs("error: cannot write standard output. The report is incomplete; run again\n", stderr);
    return 4;
}

void tmwatch_bench_print_help(FILE *file)
{
    const char *others = tmwatch_bench_computes ? "--event Memory model (link libtmwatch_steps.a): --orders --plain --races --crashes" : "";
    for (const struct option *option = options; option->name; option++)
        if (option->to == HEADING && !strstr(others, option->name))
            fprintf(file, "%s\n", option->name);
        else if (!strstr(others, option->name))
            fprintf(file, "  %s %-*s %s\n", option->name, 21 - (int)strlen(option->name), choices_of(option->to) ? "WORD" : option->takes,
                    option->text);
}

/* Prints what is wrong with the memory or the plan, and returns the exit status. */
static int tell_usage(const tmwatch_memory *memory, const tmwatch_plan *given)
{
    const tmwatch_plan plan = filled_plan(given, usual);
    const char *missing = missing_function(memory);
    if (missing)
        return REFUSE("tmwatch_memory: the function `%s` is null", missing);
    return REFUSE("%s", plan.attempts > most_of_thread(&plan)              ? "--attempts: its product with --threads is more than 8"
                        : plan.rounds == 0                                 ? "--rounds: 0 is not 1 or more"
                        : plan.threads + plan.crashes > MOST_THREADS       ? "--threads: 8 is not in 1 to 7, because --crashes needs a thread"
                        : plan.crashes && plan.schedule == TMWATCH_PERMITS ? "--crashes: not with --schedule permits"
                        : plan.event > 0 && plan.round == 0                ? "--event: only with --round"
                        : has_orders(&plan)                                ? "--round: only with --schedule steps, or with all up to 20000"
                        : !tmwatch_step_drain      ? "--orders: compile the memory with -fsanitize=thread, and link libtmwatch_steps.a"
                        : tmwatch_step_unwrapped() ? "--orders: locks are not wrapped. Link with 'pkg-config --libs tmwatch_steps'"
                                                   : "--orders: only with --schedule steps or all");
}

/* Whether the bench has come to no verdict. */
static bool is_fault(uint32_t status, const tmwatch_bench_result *result)
{
    return status != TMWATCH_OK && status != TMWATCH_INTERRUPTED && !(has_run(status) && result->result.verdict != TMWATCH_OPAQUE_SO_FAR);
}

static const char *fault_of(uint32_t status)
{
    bool is_misused = status == TMWATCH_WRONG_ANSWER || status == TMWATCH_WRONG_PHASE;
    const char *lost = status == TMWATCH_FAILED ? "program" : status == TMWATCH_NO_PROGRESS ? "no progress" : "hang";
    return has_run(status) ? lost : is_misused ? "usage" : "memory";
}

/* Prints what came out, or tells why no verdict has, and answers with the exit status. */
static int tell_result(uint32_t status, const tmwatch_bench_result *result)
{
    bool is_lost = has_run(status);
    if (!is_fault(status, result)) {
        tmwatch_bench_print(stdout, result);
        bool is_race = result->result.verdict == TMWATCH_OPAQUE_SO_FAR && is_wrong(&result->reproducer, result);
        return end_output((int)(is_race ? TMWATCH_VIOLATED : result->result.verdict));
    }
    printf("{\"fault\":\"%s\"}\n", fault_of(status));
    if (is_lost)
        print_again(stdout, result);
    fflush(stdout);
    if (is_lost) {
        tell_again(result);
        tell_orders_shown(result, true);
    } else if (strcmp(fault_of(status), "usage") == 0)
        fprintf(stderr, "the memory's function `run` %s\n",
                status == TMWATCH_WRONG_ANSWER ? "returned true, although tmwatch_run_body had not"
                                               : "called tmwatch_run_body twice in one attempt");
    else if (status != TMWATCH_NO_MEMORY)
        fprintf(stderr, "error: the watch returned the status %u\n", (unsigned)status);
    return 4;
}

/* Closes a file, if it was opened: whether it was, and all is written. */
static bool close_file(FILE *file)
{
    bool is_well = file && !ferror(file);
    return file && fclose(file) == 0 && is_well;
}

/* Opens a file beside a trace, with this after its name: none if that can't be. */
static FILE *open_beside(const char *name, const char *after)
{
    char beside[4096];
    int length = snprintf(beside, sizeof beside, "%s%s", name, after);
    return length > 0 && (size_t)length < sizeof beside ? fopen(beside, "w") : NULL;
}

/* Closes the files of a trace, and writes those beside it: what is printed of the run and the words, and its steps. Whether all was written. */
static bool write_files(const struct given *given, const tmwatch_bench_result *result, bool has_run)
{
    bool is_written = close_file(given->plan.trace);
    close_file(given->plan.steps_file);
    FILE *run = has_run ? open_beside(given->trace, ".report") : NULL;
    FILE *steps = given->size > 0 ? open_beside(given->trace, result->delayed[0] ? ".delayed" : ".steps") : NULL;
    if (run)
        print_lines(run, result, true);
    if (steps)
        fputs(given->steps, steps);
    is_written = (close_file(run) || !has_run) && is_written;
    is_written = (close_file(steps) || given->size == 0) && is_written;
    free(given->steps);
    return is_written;
}

static void write_escaped(FILE *file, const char *text)
{
    for (; *text; text++)
        fprintf(file, strchr("<>&\"'", *text) ? "&#%d;" : "%c", *text);
}

/* Writes what came out as JUnit does: one test, which a wrong memory or a race fails, and which is an error without a verdict. */
static bool write_junit(const char *name, const char *program, uint32_t status, const tmwatch_bench_result *result)
{
    FILE *file = fopen(name, "w");
    bool is_error = is_fault(status, result), is_right = is_error || result->result.verdict == TMWATCH_OPAQUE_SO_FAR;
    bool has_failed = !is_right || (!is_error && result->race[0]);
    if (!file)
        return false;
    fprintf(file, "<?xml version=\"1.0\" encoding=\"UTF-8\"?>\n<testsuite name=\"tmwatch_bench\" tests=\"1\" failures=\"%d\" errors=\"%d\">\n",
            has_failed, is_error);
    fputs("<testcase classname=\"tmwatch_bench\" name=\"", file);
    write_escaped(file, program);
    fputs("\">\n", file);
    if (has_failed || is_error) {
        fprintf(file, "<%s message=\"%s\">\n", has_failed ? "failure" : "error",
                is_error ? fault_of(status) : (is_right ? "race" : verdicts[result->result.verdict]));
        if (has_run(status))
            print_lines(file, result, true);
        fprintf(file, "</%s>\n", has_failed ? "failure" : "error");
    }
    fputs("</testcase>\n</testsuite>\n", file);
    return close_file(file);
}

static void end_by_signal(int signal UNUSED)
{
    tmwatch_bench_stop();
}

/* An interrupt ends the rounds, and a second one the program. What was ignored stays so. */
static void catch_signal(int signal, struct sigaction *before)
{
    const struct sigaction action = {.sa_handler = end_by_signal, .sa_flags = (int)SA_RESETHAND | SA_RESTART};
    sigaction(signal, NULL, before);
    if (before->sa_handler != SIG_IGN)
        sigaction(signal, &action, NULL);
}

/* Runs the bench in this process, tells what came out, and answers with the exit status. */
static int run_here(const tmwatch_memory *memory, struct given *given, const char *program)
{
    tmwatch_bench_result result;
    left.is_wanted = tmwatch_bench_computes && !given->trace && !given->plan.keep_going;
    if (tmwatch_bench_job && !tmwatch_bench_job(own_job, &given->plan))
        _Exit(is_last ? LEFT : 4);
    uint32_t status = tmwatch_bench(memory, &given->plan, &result);
    sigaction(SIGINT, &given->interrupt, NULL);
    sigaction(SIGTERM, &given->end, NULL);
    if (left.file)
        given->trace = left.name, given->plan.trace = left.file;
    bool is_written = !given->trace || write_files(given, &result, has_run(status));
    int exit_status = tell_result(status, &result);
    if (left.name[0])
        fprintf(stderr, left.file && is_written ? "its trace: %s\n" : "error: cannot write the trace to %s. Use --trace\n", left.name);
    else if (!is_written)
        exit_status = FAIL("io", "error: cannot write %s\n", given->trace);
    if (given->junit && !write_junit(given->junit, program, status, &result))
        exit_status = FAIL("io", "error: cannot write %s\n", given->junit);
    if (is_last) {
        fputs("shrunk from: ", stderr);
        tmwatch_bench_print_options(stderr, &jobs->job[own_job].result.reproducer);
        fputc('\n', stderr);
    }
    /* What the program would give back at its end, threads that are stuck still use, or the process that it is a job of. */
    if (status == TMWATCH_HANG || status >= TMWATCH_FAILED || jobs != &alone)
        _Exit(exit_status);
    return exit_status;
}

/* Looks after the jobs until one has told what came out, or a last one a smaller run that shows it: answers with the exit status. */
static int look_after(const tmwatch_memory *memory, struct given *given, const char *program)
{
    struct job *teller = await_teller(given->plan.progress), last = {.seed = teller->seed};
    if (jobs->offers && make_smaller(memory, teller, &given->plan, given->shrink) && (last.process = split()) == 0) {
        own_job = (unsigned)(teller - jobs->job);
        is_last = true;
        return run_here(memory, given, program);
    }
    int result = last.process > 0 ? end_as(&last) : LEFT;
    jobs->goes = result == LEFT;
    result = jobs->goes ? end_as(teller) : result;
    kill_job(teller);
    void *shared = jobs;
    alone.is_interrupted = jobs->is_interrupted;
    jobs = &alone; /* (a signal may come here) */
    munmap(shared, sizeof *jobs);
    if (given->trace)
        write_files(given, NULL, false); /* (nothing is left to be written) */
    sigaction(SIGINT, &given->interrupt, NULL);
    sigaction(SIGTERM, &given->end, NULL);
    return result;
}

/* Runs the bench as the words say, in this process or in jobs, and answers with the exit status. */
static int run_given(const tmwatch_memory *memory, struct given *given, const char *program)
{
    unsigned count = count_jobs(&given->plan, given->jobs);
    /* (a process that is split off needs a memory of its own) */
    bool splits = (count > 1 || given->shrink || tmwatch_bench_computes) && !has_tie("/proc/self/status") && !has_tie("/proc/self/maps") &&
                  (tmwatch_bench_job || !shares_files());
    if (given->shrink && !splits)
        fputs("warning: --shrink has no effect in a debugger, or with other threads, shared memory or shared files\n", stderr);
    if (given->trace && !(given->plan.trace = fopen(given->trace, "w")))
        return FAIL("io", "error: cannot write %s\n", given->trace);
    if (given->trace)
        given->plan.steps_file = open_memstream(&given->steps, &given->size);
    catch_signal(SIGINT, &given->interrupt);
    catch_signal(SIGTERM, &given->end);
    bool looks_after = splits && !start_jobs(&given->plan, count, given->shrink);
    return (looks_after ? look_after : run_here)(memory, given, program);
}

bool tmwatch_bench_open_standard(void)
{
    int file = STDIN_FILENO;
    /* (0 and 1 by the other mode, so that whoever reads or writes there fails as if they were closed) */
    while (file <= STDERR_FILENO && (fcntl(file, F_GETFD) >= 0 || open("/dev/null", file == STDOUT_FILENO ? O_RDONLY : O_WRONLY) == file))
        file++;
    return file > STDERR_FILENO;
}

int tmwatch_bench_main(const tmwatch_memory *memory, int count, char **words)
{
    struct given given = {.plan = TMWATCH_PLAN, .jobs = TMWATCH_RANDOM};
    if (!tmwatch_bench_open_standard())
        return 4;
    if (count == 2 && strcmp(words[1], "--help") == 0) {
        printf("usage: %s [OPTION VALUE]..\n", words[0]);
        puts("Runs random transactions on a memory in several threads, and checks the run for\nopacity.\n\nWhat to run:");
        tmwatch_bench_print_help(stdout);
        puts("  --help, --version      print this, or the version\nExit status: 0 opaque so far, 1 violated (or a race with --races fail),\n"
             "             2 undecided, 3 malformed, 4 fault");
        return end_output(0);
    }
    if (count == 2 && strcmp(words[1], "--version") == 0) {
        puts("tmwatch_bench " TMWATCH_VERSION);
        return end_output(0);
    }
    int status = read_words(&given, count > 0 ? words + 1 : words);
    given.plan.phases_file = given.phases ? stderr : NULL;
    given.plan.progress = !given.quiet && isatty(fileno(stderr)) ? stderr : NULL;
    program_name = tmwatch_bench_computes || count == 0 ? "" : words[0];
    if (status != 0 || check(memory, &given.plan) != TMWATCH_OK)
        return status != 0 ? status : tell_usage(memory, &given.plan);
    return run_given(memory, &given, count > 0 ? words[0] : "memory");
}
