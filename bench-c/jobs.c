/* Jobs: processes that run the same plan, each with a seed and a memory of its own, so that all processors are used. The first one with something
   wrong claims the report; if there is none, job 0 reports what all have counted. The process that the user starts watches over them. */

/* Job 0 is alone for its first rounds, or a second, so that an early violation has the given seed. Times are microseconds. */
enum { SEED_APART = 1000000, MOST_JOBS = 64, USUAL_JOBS = 8, ROUNDS_ALONE = 1000, LOOK_AFTER = 4000, SHOWN_EACH = SECOND_US / 2 };
enum { MOST_FILES = 1024, LEFT = 64 /* the exit status of a job that leaves it to another to tell what came out */ };

/* What the processes share. */
static struct jobs {
    atomic_bool is_interrupted; /* as by tmwatch_bench_stop, in any of them */
    atomic_uint teller;         /* 1 more than the job that tells what came out, or 0 */
    bool makes_smaller;         /* one that has a certain violation offers it first, so that smaller ones are tried, */
    atomic_bool offers, goes;   /* and goes on if there is none */
    atomic_bool is_repeated;    /* what another process has shown came again */
    uint64_t digest;            /* of the trace of the smaller one */
    unsigned count;
    uint64_t began; /* or 0, in microseconds */
    struct job {
        pid_t process; /* or 0, once it has exited, */
        int status;    /* with this */
        uint64_t seed;
        atomic_bool is_done;             /* it has nothing to tell, and `result` says what it has counted */
        atomic_uint_least64_t counts[3]; /* so far: rounds, events, unasked aborts */
        atomic_uint_least64_t digest;    /* of its trace; benches in several threads of a process all write it */
        tmwatch_bench_result result;
    } job[MOST_JOBS];
} alone, *jobs = &alone;

/* Which one this process is, or the only one; and whether it is the last one, which makes the smaller run. */
static unsigned own_job;
static bool is_last;

/* Shows how far all jobs are. */
static void show_progress(FILE *file)
{
    uint64_t counts[3] = {0, 0, 0};
    for (unsigned i = 0; i < 3 * MOST_JOBS; i++)
        counts[i % 3] += jobs->job[i / 3].counts[i % 3];
    fprintf(file, "\r\033[K%" PRIu64 " rounds, %" PRIu64 " events, %" PRIu64 " forced aborts", counts[0], counts[1], counts[2]);
    fflush(file);
}

/* Returns once this process may tell what came out, and the line of progress is cleared. If another does, this one is killed. */
static void claim(FILE *progress)
{
    for (unsigned nobody = 0; !atomic_compare_exchange_strong(&jobs->teller, &nobody, own_job + 1) && nobody != own_job + 1; nobody = 0)
        pause();
    if (progress)
        fputs("\r\033[K", progress);
}

/* What a job does that has nothing to tell. The first one takes over what all others have counted, as if its own run came after theirs. */
static void settle(tmwatch_bench_result *all)
{
    jobs->job[own_job].result = *all;
    jobs->job[own_job].is_done = !is_last;
    if (own_job > 0 || is_last)
        _Exit(LEFT);
    for (unsigned i = 1; i < jobs->count; i++) {
        while (!jobs->job[i].is_done)
            nap(LOOK_AFTER);
        tmwatch_bench_result own = *all;
        *all = jobs->job[i].result;
        add_leg(all, &own);
    }
}

/* Defined by a program whose memory is made anew in each process; and if it is another process's. */
extern bool tmwatch_bench_job(unsigned job, const tmwatch_plan *plan) __attribute__((weak));
extern bool tmwatch_bench_computes(void) __attribute__((weak));

/* What a job does once its run is over, which was wrong or wasn't: it returns if it tells what came out. What another process has shown may
   come otherwise the next time, so a try comes first. */
static void come_to_tell(tmwatch_bench_result *all, bool is_wrong)
{
    bool is_deterministic = all->result.verdict == TMWATCH_VIOLATED && are_certain(all);
    if (jobs != &alone && (!is_wrong || (is_last && !(is_deterministic && jobs->job[own_job].digest == jobs->digest))))
        settle(all);
    claim(NULL);
    if (jobs != &alone && !is_last && is_deterministic && (jobs->makes_smaller || tmwatch_bench_computes)) {
        jobs->job[own_job].result = *all;
        jobs->offers = true;
        while (!jobs->goes)
            nap(LOOK_AFTER);
    }
    all->is_deterministic = all->is_deterministic && (!tmwatch_bench_computes || jobs->is_repeated);
}

/* Whether a line of /proc/self tells of other threads, which a fork leaves behind, a debugger, or shared bytes that may be written. */
static bool is_tie(const char *line)
{
    unsigned number;
    char rights[] = "----"; /* as of /proc/self/maps, after the addresses */
    return (sscanf(line, "Threads: %u", &number) == 1 && number > 1 && !tmwatch_bench_computes) ||
           (sscanf(line, "TracerPid: %u", &number) == 1 && number > 0) ||
           (sscanf(line, "%*x-%*x %4s", rights) == 1 && rights[1] == 'w' && rights[3] == 's' && !tmwatch_bench_job);
}

static bool has_tie(const char *name)
{
    char *line = NULL;
    size_t size = 0;
    bool is_found = false;
    FILE *file = fopen(name, "r");
    while (file && !is_found && getline(&line, &size, file) > 0)
        is_found = is_tie(line);
    if (file)
        fclose(file);
    free(line);
    return is_found;
}

/* Whether this process has a file open that it may write, or a socket, beside the usual three. */
static bool shares_files(void)
{
    struct stat what;
    bool shares = false;
    for (int file = STDERR_FILENO + 1; file < MOST_FILES && !shares; file++)
        shares = fstat(file, &what) == 0 && (fcntl(file, F_GETFL) & O_ACCMODE) != O_RDONLY && (S_ISREG(what.st_mode) || S_ISSOCK(what.st_mode));
    return shares;
}

/* How many jobs run a plan: as many as are said, or, by TMWATCH_RANDOM, one for each processor by a time alone, and else one, which repeats. */
static unsigned count_jobs(const tmwatch_plan *plan, uint64_t said)
{
    cpu_set_t set;
    bool is_said = said != TMWATCH_RANDOM, hunts = plan->schedule == TMWATCH_ALL && plan->rounds == UINT64_MAX && !plan->phases_file;
    uint64_t count = is_said ? said : 1;
    if (!is_said && hunts && !tmwatch_bench_job && sched_getaffinity(0, sizeof set, &set) == 0)
        count = CPU_COUNT(&set) < USUAL_JOBS ? (uint64_t)CPU_COUNT(&set) : USUAL_JOBS;
    uint64_t most = plan->round > 0 || plan->keep_going ? 1 : plan->rounds;
    return (unsigned)(count < most ? count : most);
}

/* Splits off a process that ends when this one does: 0 in that. */
static pid_t split(void)
{
    pid_t parent = getpid(), process = fork();
    if (process == 0 && (prctl(PR_SET_PDEATHSIG, SIGKILL) != 0 || getppid() != parent))
        _Exit(4);
    return process;
}

/* Begins as a job, by its seed and its part of the rounds; another than the first one after a while. */
static void begin_job(unsigned number, tmwatch_plan *plan)
{
    const struct job *first = &jobs->job[0];
    own_job = number;
    plan->seed = jobs->job[number].seed;
    if (plan->rounds != UINT64_MAX)
        plan->rounds = plan->rounds / jobs->count + (number > 0 ? 0 : plan->rounds % jobs->count);
    while (number > 0 && first->counts[0] < ROUNDS_ALONE && !first->is_done && microseconds_of(CLOCK_MONOTONIC) - jobs->began < SECOND_US)
        nap(LOOK_AFTER);
}

/* Splits off the jobs, the first one last: whether this process is one. What the system refuses has nothing to tell. */
static bool start_jobs(tmwatch_plan *plan, unsigned count, bool makes_smaller)
{
    void *shared = mmap(NULL, sizeof *jobs, PROT_READ | PROT_WRITE, MAP_SHARED | MAP_ANONYMOUS, -1, 0);
    if (shared == MAP_FAILED)
        return true;
    jobs = shared;
    jobs->is_interrupted |= alone.is_interrupted; /* (a signal came before) */
    jobs->count = count;
    jobs->began = microseconds_of(CLOCK_MONOTONIC);
    jobs->makes_smaller = makes_smaller;
    signal(SIGCHLD, SIG_DFL);
    fflush(NULL);
    for (unsigned i = count; i-- > 0;) {
        struct job *it = &jobs->job[i];
        it->seed = plan->seed + i * (uint64_t)SEED_APART;
        pid_t process = split();
        if (process == 0) {
            begin_job(i, plan);
            return true;
        }
        it->process = process > 0 ? process : 0;
        it->is_done = process < 0 && i > 0;
        it->status = 4 << 8; /* as exit(4) */
    }
    return false;
}

/* Waits for the end of a process: its status. */
static int await_process(pid_t process)
{
    int status = 0;
    while (waitpid(process, &status, 0) < 0 && errno == EINTR)
        ;
    return status;
}

static void kill_job(struct job *it)
{
    if (it->process > 0 && kill(it->process, SIGKILL) == 0)
        await_process(it->process);
    it->process = 0;
}

/* Looks which jobs have exited: the one that has told what came out or offers it, or one that has ended by itself, or null. */
static struct job *find_ended(void)
{
    struct job *ended = NULL, *teller = jobs->teller > 0 ? &jobs->job[jobs->teller - 1] : NULL;
    for (struct job *it = jobs->job; it < jobs->job + jobs->count; it++) {
        if (it->process > 0 && waitpid(it->process, &it->status, WNOHANG) != 0)
            it->process = 0;
        if (it->process == 0 && !it->is_done)
            ended = it;
    }
    return !teller ? ended : teller->process == 0 || jobs->offers ? teller : NULL;
}

/* Waits until one of the jobs has told what came out, or offers it, or has ended by itself, and kills the others. */
static struct job *await_teller(FILE *progress)
{
    struct job *found;
    uint64_t shown = microseconds_of(CLOCK_MONOTONIC);
    for (; !(found = find_ended()); nap(LOOK_AFTER))
        if (progress && jobs->teller == 0 && microseconds_of(CLOCK_MONOTONIC) - shown >= SHOWN_EACH) {
            show_progress(progress);
            shown = microseconds_of(CLOCK_MONOTONIC);
        }
    for (unsigned i = 0; i < jobs->count; i++)
        if (&jobs->job[i] != found)
            kill_job(&jobs->job[i]);
    return found;
}

/* Ends as the job does: the exit status, or by the signal that has ended it. */
static int end_as(struct job *it)
{
    int status = it->process == 0 ? it->status : await_process(it->process), number = WTERMSIG(status);
    it->process = 0;
    if (WIFEXITED(status))
        return WEXITSTATUS(status);
    fprintf(stderr, "the job of --seed %" PRIu64 " was ended by signal %d (%s)\n", it->seed, number, strsignal(number));
    prctl(PR_SET_DUMPABLE, 0); /* (the job has left its core) */
    signal(number, SIG_DFL);
    raise(number);
    return 4;
}
