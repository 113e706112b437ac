/* What the files of the bench by lines share. Times are nanoseconds of CLOCK_MONOTONIC. */
#ifndef LINES_H
#define LINES_H

#define _GNU_SOURCE
#include "tmwatch_bench.h"
#include <stdatomic.h>
#include <sys/types.h>

enum {
    MOST_THREADS = 8,
    MOST_REGISTERS = 8,
    MOST_JOBS = 64,
    MOST_LINE = 64, /* of a line, with its end */
    FAULT = 4       /* the exit status */
};
#define SECOND UINT64_C(1000000000)
#define MILLISECOND UINT64_C(1000000)
#define FOREVER UINT64_MAX
#define UNUSED __attribute__((unused))

/* What the words say, besides those of the bench. */
struct options {
    bool is_single, has_add;                 /* one program for all threads; the program adds */
    bool by_all;                             /* the schedule */
    const char *setup, *teardown;            /* commands, or null */
    const char *crash;                       /* the same: kills the store and starts it again */
    const char *full_trace;                  /* the file of the whole run, or null */
    uint64_t jobs;                           /* how many runs there are at once */
    uint64_t startup_timeout, blocked_after; /* seconds until a program is ready; milliseconds until a call waits, or 0 if that is found out */
    unsigned threads, registers;             /* how many at most */
    char **program;                          /* its words, up to a null */
};
extern struct options options;

/* A program, and what it has written that is no whole line yet. */
struct program {
    pid_t pid;
    int to, from;
    atomic_bool is_read; /* by one thread at a time */
    size_t have;
    char text[4096];
};

/* main.c */
uint64_t now(void);

/* What the processes of a run share: what any job has shown, or whether it failed before its run; the runs of each; the programs' process groups. */
struct shared {
    atomic_bool have_met /* two calls have run at once */, is_to_add, has_added, has_failed;
    atomic_int supervisor, runs[MOST_JOBS], programs[MOST_JOBS][MOST_THREADS]; /* (0 once the group is gone) */
};
extern struct shared *shared;

/* supervisor.c: makes a run in processes that end all that they have started, and returns the exit status; notes a program to be ended; begins as
   this job, whose store is as it was set up. */
int supervise_run(int (*run)(void));
void note_program(unsigned number, pid_t pid);
bool begin_job(unsigned job);
bool run_command(const char *name, const char *command);

/* programs.c */
void start_programs(void);
struct program *program_of(unsigned thread);
void kill_programs(void);

/* failures.c: each says in one line what is wrong, and doesn't return. The call of that thread stays without an answer. */
extern atomic_bool is_running;
_Noreturn void fail(unsigned thread, const char *format, ...) __attribute__((format(printf, 2, 3)));
_Noreturn void fail_answer(unsigned thread, const char *answer, const char *hint);
_Noreturn void fail_ended(unsigned thread);
const char *shown(const char *line, size_t length);

/* conversation.c: writes a call of this thread, and returns its answer, or null after a crash. */
const char *ask(const char *format, ...) __attribute__((format(printf, 1, 2)));
bool is_answered(unsigned thread, uint64_t until);
void end_call(unsigned thread);
const char *call_of(unsigned thread, bool *is_pending);
void begin_conversation(uint64_t until);
void end_conversation(void);

/* crash.c: whether the store crashes at this call, and what comes of it. */
extern atomic_bool has_crashed;
void begin_crashes(uint64_t seed);
bool crashes_now(void);
void crash(unsigned thread);

/* record.c: the file of the whole run, if one is asked for. */
void open_record(void);
void record(unsigned thread, const char *event);

/* waits.c */
void await_answer(unsigned thread);

/* memory.c */
tmwatch_memory lines_memory(void);
void check_abort(unsigned thread, const char *answer);
void tell_left_open(void);

#endif
