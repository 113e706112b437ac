/* The processes of a run. Each ends what it has started, so nothing is left behind if one of them is killed. The user starts and signals the
   first. The second runs the setup, starts the bench, and in the end kills all programs, runs the teardown and ends what the setup has left. The
   third is the bench, which starts the programs. Orphans become children of the second, or of the first. */
#include "lines.h"
#include <errno.h>
#include <fcntl.h>
#include <signal.h>
#include <stdlib.h>
#include <string.h>
#include <sys/mman.h>
#include <sys/prctl.h>
#include <sys/wait.h>
#include <unistd.h>

/* How long a program has to end by itself once its input has ended, and then by SIGTERM; a signal that comes twice within TWICE, as
   timeout(1) sends it, is one. */
#define OWN_END (300 * MILLISECOND)
#define END (SECOND / 2)
#define TWICE (SECOND / 2)
enum { TRIES = 100, TRIES_BY_TERM = 25, EACH_TRY = 20000 /* microseconds */ };

/* The bench writes the leaders of the programs' groups, and another process ends them. */
struct shared *shared;

/* Which job this process is. */
static unsigned own_job;

void note_program(unsigned number, pid_t pid)
{
    shared->programs[own_job][number] = pid;
}

/* Who gets the signals that come: a process, or by a negative number a group. */
static volatile pid_t signalled;
static volatile sig_atomic_t is_interrupted;

static void hand_on(int signal)
{
    static uint64_t last;
    int error = errno;
    uint64_t at = now();
    is_interrupted = 1;
    if (signalled != 0 && at - last > TWICE)
        kill(signalled, signal == SIGHUP ? SIGTERM : signal);
    last = at;
    errno = error;
}

/* What was ignored stays so. */
static void catch_signals(void (*by)(int))
{
    static const int signals[] = {SIGINT, SIGTERM, SIGHUP};
    const struct sigaction action = {.sa_handler = by, .sa_flags = SA_RESTART};
    struct sigaction before;
    for (size_t i = 0; i < sizeof signals / sizeof signals[0]; i++)
        if (sigaction(signals[i], NULL, &before) == 0 && before.sa_handler != SIG_IGN)
            sigaction(signals[i], &action, NULL);
}

/* Signals end this process, also one that has come since it was started. */
static void catch_none(void)
{
    catch_signals(SIG_DFL);
    if (is_interrupted)
        raise(SIGTERM);
}

/* Signals each group of programs: whether one is left. A group that is gone is forgotten, because its number may become that of a foreign one. */
static bool signal_programs(int signal)
{
    bool is_left = false;
    for (unsigned i = 0; i < MOST_JOBS * MOST_THREADS; i++) {
        atomic_int *noted = &shared->programs[i / MOST_THREADS][i % MOST_THREADS];
        int leader = *noted;
        bool is_there = leader > 0 && kill(-leader, signal) == 0;
        if (leader > 0 && !is_there)
            atomic_compare_exchange_strong(noted, &leader, 0);
        is_left = is_left || is_there;
    }
    return is_left;
}

/* Waits for a child, to which signals are handed on meanwhile, or to its group: the status of waitpid, or as by exit(FAULT) if there is none. */
static int wait_for(pid_t pid, bool has_group)
{
    int status = 0;
    siginfo_t ended = {.si_signo = 0};
    if (pid < 0)
        return FAULT << 8;
    signalled = has_group ? -pid : pid;
    if (is_interrupted)
        kill(signalled, SIGTERM);
    /* (what others have left behind is reaped too) */
    while (ended.si_pid != pid && (waitid(has_group ? P_PID : P_ALL, (id_t)pid, &ended, WEXITED | WNOWAIT) == 0 || errno == EINTR))
        if (ended.si_pid != pid && waitpid(ended.si_pid, NULL, WNOHANG) > 0)
            signal_programs(0);
    /* Until it is reaped, its number is no other process's. */
    signalled = 0;
    waitpid(pid, &status, 0);
    return status;
}

/* Starts a process that makes this, and that ends as by SIGTERM when its parent has. It is in a group of its own. */
static pid_t start_own(int (*make)(int (*)(void)), int (*run)(void))
{
    pid_t parent = getpid(), pid = fork();
    if (pid < 0)
        perror("cannot start a process"), puts("{\"fault\":\"memory\"}");
    if (pid != 0)
        return pid;
    setpgid(0, 0);
    prctl(PR_SET_PDEATHSIG, SIGTERM);
    _exit(getppid() == parent ? make(run) : FAULT);
}

/* Runs a command of the shell: whether all went well, else a line says what didn't. What it prints goes to standard error. */
bool run_command(const char *name, const char *command)
{
    pid_t pid = fork();
    if (pid == 0) {
        int none = open("/dev/null", O_RDONLY);
        setpgid(0, 0);
        catch_none();
        dup2(none, STDIN_FILENO);
        dup2(STDERR_FILENO, STDOUT_FILENO);
        execl("/bin/sh", "sh", "-c", command, (char *)NULL);
        _exit(FAULT);
    }
    int status = wait_for(pid, true);
    if (WIFSIGNALED(status))
        fprintf(stderr, "%s was ended by signal %d (%s): %s\n", name, WTERMSIG(status), strsignal(WTERMSIG(status)), command);
    else if (status != 0)
        fprintf(stderr, "%s has ended with status %d: %s\n", name, WEXITSTATUS(status), command);
    return status == 0;
}

/* Makes this process the job, and runs a command for it, if there is one. */
static bool run_for(unsigned job, const char *name, const char *command)
{
    const char number[] = {(char)('0' + job / 10), (char)('0' + job % 10), '\0'};
    own_job = job;
    setenv("TMWATCH_JOB", job < 10 ? number + 1 : number, 1);
    return !command || run_command(name, command);
}

bool begin_job(unsigned job)
{
    int runs = shared->runs[job]++;
    if (runs == 0)
        return run_for(job, "", NULL);
    for (unsigned i = 0; i < MOST_THREADS; i++)
        if (shared->programs[job][i] > 0)
            kill(-shared->programs[job][i], SIGKILL);
    /* (what the teardown removes may have been there before the setup) */
    return (runs == 1 && run_for(job, "the setup", options.setup)) ||
           (run_for(job, "the teardown", options.teardown) && run_for(job, "the setup", options.setup));
}

/* Whether all groups of programs are gone by then. */
static bool are_gone(uint64_t until)
{
    for (;; usleep(EACH_TRY / 4)) {
        while (waitpid(-1, NULL, WNOHANG) > 0)
            ;
        bool is_left = signal_programs(0);
        if (!is_left || now() >= until)
            return !is_left;
    }
}

/* Ends the programs' groups. */
static void end_programs(void)
{
    static const int signals[] = {SIGTERM, SIGKILL};
    for (unsigned i = 0; !are_gone(now() + (i == 0 ? OWN_END : END)) && i < 2; i++)
        signal_programs(signals[i]);
}

/* Signals each child: whether there is any. Its number is no other process's, because nobody but this process, which has one thread, reaps it. */
static bool signal_children(int signal)
{
    char name[64];
    bool is_any = false;
    siginfo_t unused;
    snprintf(name, sizeof name, "/proc/self/task/%d/children", (int)getpid());
    FILE *file = fopen(name, "r");
    for (int child; file && fscanf(file, "%d", &child) == 1;)
        if (waitid(P_PID, (id_t)child, &unused, WEXITED | WNOHANG | WNOWAIT) == 0 && kill(child, signal) == 0)
            is_any = true;
    if (file)
        fclose(file);
    return is_any;
}

/* Ends all children, and those that come from them. */
static void end_children(void)
{
    for (int tries = 0; tries < TRIES && signal_children(tries < TRIES_BY_TERM ? SIGTERM : SIGKILL); tries++) {
        usleep(EACH_TRY);
        while (waitpid(-1, NULL, WNOHANG) > 0)
            ;
    }
}

/* Ends all but this process. */
static void end_run(void)
{
    end_programs();
    is_interrupted = 0;
    for (unsigned job = 0; job < options.jobs; job++)
        run_for(job, "the teardown", options.teardown);
    end_children();
}

static int run_bench(int (*run)(void))
{
    catch_none();
    return run();
}

/* What the second process does. */
static int make_run(int (*run)(void))
{
    int status = 0, result = FAULT;
    bool is_set_up = true;
    prctl(PR_SET_CHILD_SUBREAPER, 1);
    shared->supervisor = getpid();
    for (unsigned job = 0; job < options.jobs && is_set_up; job++)
        is_set_up = run_for(job, "the setup", options.setup);
    if (is_set_up && !is_interrupted) {
        status = wait_for(start_own(run_bench, run), false);
        result = WIFSIGNALED(status) ? 128 + WTERMSIG(status) : WEXITSTATUS(status);
    } else
        puts("{\"fault\":\"program\"}");
    if (WIFSIGNALED(status))
        fprintf(stderr, "the bench was ended by signal %d (%s)\n", WTERMSIG(status), strsignal(WTERMSIG(status)));
    fflush(stdout);
    end_run();
    return result;
}

int supervise_run(int (*run)(void))
{
    void *mapped = mmap(NULL, sizeof *shared, PROT_READ | PROT_WRITE, MAP_SHARED | MAP_ANONYMOUS, -1, 0);
    if (mapped == MAP_FAILED)
        return FAULT;
    shared = mapped;
    signal(SIGCHLD, SIG_DFL); /* (where it is ignored, the system reaps children) */
    prctl(PR_SET_CHILD_SUBREAPER, 1);
    catch_signals(hand_on);
    int status = wait_for(start_own(make_run, run), false);
    if (!WIFSIGNALED(status))
        return WEXITSTATUS(status);
    fprintf(stderr, "the supervisor was ended by signal %d (%s)\n", WTERMSIG(status), strsignal(WTERMSIG(status)));
    end_run();
    return 128 + WTERMSIG(status);
}
