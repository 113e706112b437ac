/* The programs: one for each thread, or one for all. */
#include "lines.h"
#include <fcntl.h>
#include <signal.h>
#include <spawn.h>
#include <stdlib.h>
#include <string.h>
#include <sys/wait.h>
#include <unistd.h>

static struct program programs[MOST_THREADS];

struct program *program_of(unsigned thread)
{
    return &programs[options.is_single ? 0 : thread];
}

/* Starts a program in a group of its own, with the usual signals: 0, or the number of an error. */
static int spawn(struct program *it, int in, int out)
{
    extern char **environ;
    posix_spawn_file_actions_t files;
    posix_spawnattr_t how;
    sigset_t none, usual;
    sigemptyset(&none);
    sigfillset(&usual);
    posix_spawn_file_actions_init(&files);
    posix_spawn_file_actions_adddup2(&files, in, STDIN_FILENO);
    posix_spawn_file_actions_adddup2(&files, out, STDOUT_FILENO);
    posix_spawnattr_init(&how);
    posix_spawnattr_setflags(&how, POSIX_SPAWN_SETPGROUP | POSIX_SPAWN_SETSIGMASK | POSIX_SPAWN_SETSIGDEF);
    posix_spawnattr_setpgroup(&how, 0);
    posix_spawnattr_setsigmask(&how, &none);
    posix_spawnattr_setsigdefault(&how, &usual);
    int status = posix_spawnp(&it->pid, options.program[0], &files, &how, options.program, environ);
    posix_spawn_file_actions_destroy(&files);
    posix_spawnattr_destroy(&how);
    return status;
}

/* Starts the program of a thread, or of all. */
static void start_program(unsigned thread)
{
    struct program *it = &programs[thread];
    int in[2], out[2], status;
    char number[] = {(char)('0' + thread), '\0'};
    if (pipe2(in, O_CLOEXEC) != 0 || pipe2(out, O_CLOEXEC) != 0)
        fail(thread, "cannot make a pipe to the program");
    if (options.is_single)
        unsetenv("TMWATCH_THREAD");
    else
        setenv("TMWATCH_THREAD", number, 1);
    if ((status = spawn(it, in[0], out[1])) != 0)
        fail(thread, "cannot start %s: %s", options.program[0], strerror(status));
    note_program(thread, it->pid);
    close(in[0]);
    close(out[1]);
    if (it->to > 0) {
        close(it->to);
        close(it->from);
    }
    it->to = in[1];
    it->from = out[0];
    it->have = 0;
}

void kill_programs(void)
{
    for (unsigned thread = 0; thread < MOST_THREADS; thread++)
        if (programs[thread].pid > 0) {
            kill(-programs[thread].pid, SIGKILL);
            note_program(thread, 0);
            waitpid(programs[thread].pid, NULL, 0);
            programs[thread].pid = 0;
        }
}

void start_programs(void)
{
    uint64_t until = now() + options.startup_timeout * SECOND;
    signal(SIGPIPE, SIG_IGN);
    for (unsigned thread = 0; thread < (options.is_single ? 1 : options.threads); thread++)
        start_program(thread);
    begin_conversation(until);
}
