/*
tmwatch_bench: tests a transactional memory that is written in C or C++. It runs rounds of random transactions in threads and records them,
while a watch (tmwatch.h), which is an online judge, checks the record.

    static const tmwatch_memory memory = {&words, sizeof(struct my_tx), my_begin, my_read, my_write, NULL, my_commit, my_abort, NULL};

    TMWATCH_BENCH_MAIN(memory)

With these functions defined, this is a complete program. Or call the bench from a program of your own:

    tmwatch_plan plan = TMWATCH_PLAN;
    tmwatch_bench_result result;
    if (tmwatch_bench(&memory, &plan, &result) == TMWATCH_OK)
        tmwatch_bench_print(stdout, &result);

Link libtmwatch_bench.a before libtmwatch.a. The packages tmwatch_bench and tmwatch_steps of pkg-config have the options. No proof covers
the bench; the verdict is the watch's.

ROUNDS. In each round, every thread runs its share of transactions, and then all threads wait for one another. A transaction that is rolled
back is retried, but a round has at most eight attempts, because a watch decides a run only if at most eight transactions lie between two
quiescent points. In an ordinary round, each thread runs one transaction. In a mixed round, one thread runs one long transaction, and others
run several short ones.

SCHEDULES. With TMWATCH_ROUNDS, the threads of a round run in parallel.

TMWATCH_STEPS is a controlled scheduler, which lets only one thread run at a time. Before and after each call of the memory, and at each
TMWATCH_PAUSE, it may switch to another thread; the seed decides when, and to which one. Some rounds are a random walk, which switches
often. The others use priorities, which starve a thread for a long time (PCT, by Burckhardt, Kothari, Musuvathi and Nagarakatte, ASPLOS
2010). The same plan gives the same trace, unless the memory's behaviour depends on time, addresses or chance, or `stalls` or `waits` of
the result is above 0.

This scheduler has to see when a thread waits for another one. Therefore put TMWATCH_PAUSE into each loop that waits. If a thread waits with
a lock, a condition variable, a sleep, a yield or a futex of the system, link the program with the options of pkg-config, which wrap these
functions. Otherwise the scheduler stalls: when the running thread has made no step for a quarter of a second of processor time, or has
slept for fifty milliseconds, it lets another thread run as well. After two stalls, five milliseconds of either are enough. A memory that
sends requests to another process has to report that (tmwatch_external_call).

With TMWATCH_PERMITS, the threads run freely. Each attempt takes one of eight permits (tmwatch_permits.h), and a transaction is retried until
it commits or reaches its abort request, or until plan.attempts is used up.

With TMWATCH_ALL, phases of up to 1000 rounds follow one another. The first twenty use TMWATCH_STEPS. Of each twenty after that, one uses
TMWATCH_ROUNDS, one TMWATCH_PERMITS, and the others TMWATCH_STEPS; but if the memory has no steps of its own, three of each four use
TMWATCH_ROUNDS or TMWATCH_PERMITS. A phase with one of these two ends after a tenth of a second at the latest. In half of the phases after
the first, random values replace those that the plan leaves open (TMWATCH_RANDOM). All phases run in the same threads.

If the memory sends requests to another process (tmwatch_external_call), 1000 rounds may take long, so phases of TMWATCH_ALL end by time
instead. At the beginning, phases with TMWATCH_STEPS follow one another until one has run for five seconds. Later ones end after one second,
and those with TMWATCH_ROUNDS or TMWATCH_PERMITS take twice as long as the last one with TMWATCH_STEPS.

STEPS WITHOUT PAUSES. You need not place TMWATCH_PAUSE if you compile the memory with -fsanitize=thread, and link without that option but with
libtmwatch_steps.a first. Then each atomic access is a step, and with plan.plain every other access too. plan.orders chooses the memory model.
With TMWATCH_X86, an atomic store that is not sequentially consistent may be delayed, as in the store buffers of x86, at most until the answer
of its call is recorded, or its thread yields, sleeps or waits. With TMWATCH_CXX, an atomic load may return any value that C++20 allows; the
seed chooses it. TMWATCH_ALL uses each of these two in one of four phases with steps. Stores to a thread's own bytes (its stack and `tx`) are
never delayed. Stores to a block of the heap are delayed only if the program is linked with the options of tmwatch_steps, because the bench has
to see when the block is freed. The bench does not see the accesses of inline assembly, or of code that was compiled without -fsanitize=thread.

RECORDING. The bench records a call before it calls the memory, and the answer after the memory has returned. The first call of a
transaction is recorded before the memory begins the transaction. All events are recorded with tmwatch_record_next_call and
tmwatch_record_answer, so no record is malformed. No two writes have the same value, and values use all 64 bits. A register is read before
it is written, except in blind transactions, which only write. An addend is any number below 2^64 - 1.

AUDITS. An audit is a transaction that reads all registers while no other thread runs one. The bench makes one at the beginning and end of each
phase, and after each 64th round; with TMWATCH_PERMITS, some time after each 512 attempts instead. If attempts to write a register were rolled
back since the last audit, and none committed, the bench first writes that register, in a transaction that runs by itself too. If such a
transaction is rolled back, it is retried for plan.timeout seconds, up to tens of thousands of times. Then the status is TMWATCH_NO_PROGRESS.

The program has the following duties, in addition to those of tmwatch.h. The bench checks none of them:

1. The memory has eight registers of 64 bits with the initial values plan.start, and nothing else uses it while the bench runs. Fewer
   registers suffice if plan.registers is their number, and fewer bits with plan.small.
2. All threads may call its functions at the same time, each with its own `tx`.
3. Each of its functions returns, unless it calls tmwatch_bench_fail, or jumps from `read`, `write` or `add` back into `run` with longjmp. None
   throws an exception to the bench. The only other functions of the bench that they call are tmwatch_begin_attempt, tmwatch_run_body,
   tmwatch_thread, tmwatch_pause, tmwatch_external_call, tmwatch_external_blocked and tmwatch_bench_crash.
4. With TMWATCH_PERMITS, tmwatch_begin_attempt may wait until attempts of other threads have ended. So when `run` calls it, the thread holds
   no lock that these may wait for.
*/
#ifndef TMWATCH_BENCH_H
#define TMWATCH_BENCH_H

#include "tmwatch.h"
#include <stdio.h>

#ifdef __cplusplus
extern "C" {
#endif

/* A transaction that `run` executes, in one or several attempts. */
typedef struct tmwatch_attempt tmwatch_attempt;

/*
The memory to test. A register is a number below plan.registers. `tx` points to tx_size bytes that belong to the calling thread, aligned
like a block of malloc. They are all 0 before the thread's first transaction, and later as the thread left them.

`begin`, `read`, `write`, `add` and `commit` return true on success. They return false if the transaction is aborted and rolled back; then
no other function is called for it. `abort` rolls back.

A memory that retries a transaction itself, with longjmp or in a loop, has `run` instead of `begin`, `commit` and `abort`. `run` calls
tmwatch_begin_attempt(attempt) before the memory begins an attempt, and after a rollback again, before the next one. If that returns false,
`run` begins no attempt, and returns false. Within the attempt, it calls tmwatch_run_body(attempt) once, which calls `read`, `write` and
`add`. If that returns true, `run` commits. If it returns false, because `read`, `write` or `add` returned false or because the transaction
requests an abort, `run` rolls back, unless that has already been done. `run` returns whether the transaction committed.
*/
typedef struct tmwatch_memory {
    void *memory; /* passed to each function as `memory` */
    size_t tx_size;
    bool (*begin)(void *memory, void *tx);
    bool (*read)(void *memory, void *tx, unsigned reg, uint64_t *value);
    bool (*write)(void *memory, void *tx, unsigned reg, uint64_t value);
    bool (*add)(void *memory, void *tx, unsigned reg, uint64_t addend, uint64_t *before); /* or null */
    bool (*commit)(void *memory, void *tx);
    void (*abort)(void *memory, void *tx);
    bool (*run)(void *memory, void *tx, tmwatch_attempt *attempt); /* or null */
} tmwatch_memory;

/* How the threads are scheduled. */
enum tmwatch_schedule {
    TMWATCH_ROUNDS = 0,  /* in rounds, each thread with its share of at most eight attempts */
    TMWATCH_PERMITS = 1, /* freely, each attempt with one of eight permits */
    TMWATCH_STEPS = 2,   /* in rounds, one thread at a time, which the seed chooses at each step */
    TMWATCH_ALL = 3      /* in phases, most of them with TMWATCH_STEPS, the others with TMWATCH_ROUNDS or TMWATCH_PERMITS */
};

/* The memory model for atomic accesses, if the memory is compiled for libtmwatch_steps.a. */
enum tmwatch_orders {
    TMWATCH_SEQUENTIAL = 0, /* sequentially consistent, in the order of the steps */
    TMWATCH_X86 = 1,        /* with TMWATCH_STEPS: stores are delayed, as in the store buffers of x86 */
    TMWATCH_CXX = 2         /* with TMWATCH_STEPS: a load may return any value that C++20 allows */
};

/* Leaves a number of a plan open: it is then the default, or with TMWATCH_ALL a random one in half of the phases after the first. */
#define TMWATCH_RANDOM UINT64_MAX

/* What to run. Fields with two stars may be TMWATCH_RANDOM; their defaults are in brackets. */
typedef struct tmwatch_plan {
    uint64_t rounds;       /* maximum number of rounds, at least 1; with TMWATCH_PERMITS, of transactions of each thread */
    uint64_t seed;         /* of the random transactions, pauses and steps */
    uint64_t threads;      /* ** (4) 1 to 8 */
    uint64_t registers;    /* ** (3) 1 to 8 */
    uint64_t accesses;     /* ** (3) number of accesses of a transaction, each to a random register, which may repeat: a read, a read and then
                              a write, or an add; 1 to 16 */
    uint64_t attempts;     /* maximum number of attempts of each transaction, where threads * attempts is at most 8; 0: as many as that
                              allows. With TMWATCH_PERMITS: any number; 0: no maximum */
    uint64_t writes;       /* ** (50) percentage of the registers read that are written afterwards */
    uint64_t adds;         /* ** (20) percentage of accesses that add instead, if the memory has `add` */
    uint64_t aborts;       /* ** (12) percentage of transactions that request an abort at their end */
    uint64_t pause;        /* ** (100) without TMWATCH_STEPS: before and after a call, with a chance of one half, a thread spins for a random
                              number of iterations below this; at most 2^20; 0: never */
    uint64_t seconds;      /* no round, or with TMWATCH_PERMITS no attempt, begins after this many seconds; 0: no limit of time */
    uint64_t schedule;     /* a tmwatch_schedule */
    uint64_t start[8];     /* initial values of the registers */
    FILE *trace;           /* or null: the end of the run is written here as a trace, perhaps without events */
    uint64_t mixed_rounds; /* ** (50) percentage of rounds that are mixed: one thread runs one long transaction, others several short ones,
                              in eight attempts in all */
    uint64_t round;        /* with TMWATCH_STEPS: tmwatch_breakpoint is called before this round; with TMWATCH_ALL, one of the first 20000;
                              0: never */
    uint64_t orders;       /* ** (0) a tmwatch_orders; others than TMWATCH_SEQUENTIAL need TMWATCH_STEPS, or apply to such phases of
                              TMWATCH_ALL */
    uint64_t plain;        /* 1: plain accesses are steps too (libtmwatch_steps.a); or 0 */
    uint64_t timeout;      /* the run ends after this many seconds without an event (more under load), or if a transaction of an audit has
                              been rolled back for that long; 0: never */
    FILE *progress;        /* or null: a line of progress is written here twice a second */
    uint64_t blind_writes; /* ** (10) percentage of transactions that only write, unless `writes` is 0 */
    uint64_t event;        /* with `round`: tmwatch_breakpoint is called before this event of the round instead; 0: before the round */
    FILE *phases_file;     /* or null: the options of each phase are written here, a line each */
    FILE *steps_file;      /* or null: a line for each step of the wrong round is written here: how many events of the round precede it, the
                              thread, the address of the step in the program or library, and the library's name. If result->delayed is
                              not empty, the trace with the delayed load is written instead */
    uint64_t races;        /* 1: a data race is wrong, like a violation; or 0 */
    uint64_t small;        /* 1: values are small, and addends below 2^16, for registers of fewer than 64 bits; or 0 */
    uint64_t keep_going;   /* 1: a phase continues after a violation, for a caller that records the whole run; or 0 */
    uint64_t crashes;      /* 1: the memory calls tmwatch_bench_crash; a thread and one of eight attempts are reserved for an audit then; or
                              0 */
    uint64_t audit_first;  /* 1: with `round`, an audit precedes that round, so that a trace of it begins there; or 0 */
} tmwatch_plan;

/* clang-format off */
#define TMWATCH_PLAN                                                                                                                      \
    {100000, 1, TMWATCH_RANDOM, TMWATCH_RANDOM, TMWATCH_RANDOM, 0, TMWATCH_RANDOM, TMWATCH_RANDOM, TMWATCH_RANDOM, TMWATCH_RANDOM, 0,     \
     TMWATCH_ALL, {0, 0, 0, 0, 0, 0, 0, 0}, NULL, TMWATCH_RANDOM, 0, TMWATCH_RANDOM, 0, 5, NULL, TMWATCH_RANDOM, 0, NULL, NULL, 0, 0, 0, 0,\
     0}
/* clang-format on */

/* Sizes in bytes of the texts in a tmwatch_bench_result. */
enum { TMWATCH_MAX_STALE_LOADS = 4096, TMWATCH_MAX_RACE = 1024 };

/* Bits: synchronization that the bench cannot observe. */
enum tmwatch_untracked {
    TMWATCH_UNTRACKED_STORES = 1, /* code compiled without -fsanitize=thread, or a thread that isn't the bench's, stores to locations that the
                                     memory's own code loads */
    TMWATCH_UNTRACKED_LOCKS = 2,  /* the linker did not wrap a lock; or the memory's functions contain an instruction that locks or is a fence,
                                     so all phases are sequentially consistent */
    TMWATCH_UNTRACKED_WAITS = 4,  /* a thread was blocked: result->stalls */
    TMWATCH_UNTRACKED_BLOCKS = 8  /* stores to blocks of the heap weren't delayed, since nothing shows when these are freed */
};

/* A further `why` of TMWATCH_UNDECIDED: the run is violated under the memory model of x86 or C++20, but untracked synchronization may forbid
   that run. */
enum { TMWATCH_UNTRACKED = 3 };

/* The result of a run. */
typedef struct tmwatch_bench_result {
    tmwatch_result result; /* the verdict on all recorded events */
    tmwatch_counts counts; /* their statistics: if none_overlapped is 1, no two transactions overlapped, so the run tests nothing */
    uint64_t rounds;       /* number of rounds that were run, with TMWATCH_STEPS up to the wrong one; with TMWATCH_PERMITS, the least number of
                              transactions that a thread began */
    uint64_t skipped;      /* number of events before the trace, if one was written */
    uint64_t max_interleaved_commits; /* a lower bound of the largest number of commits of other threads during one attempt */
    uint64_t stores;                  /* number of recorded writes and adds */
    uint64_t steps;                   /* with TMWATCH_STEPS: number of steps, at which the scheduler could switch */
    uint64_t context_switches;        /* with TMWATCH_STEPS: number of context switches */
    uint64_t stalls;                  /* with TMWATCH_STEPS: number of stalls: a thread was blocked, so another one ran too, or its delayed
                                         stores were made. If above 0, the run may not be reproducible */
    uint64_t waits;                   /* number of waits in tmwatch_external_blocked. If above 0, the run may not be reproducible */
    uint64_t crashes;                 /* number of crashes of the memory. If above 0, the run may not be reproducible */
    tmwatch_plan reproducer;          /* a plan that reproduces the end of the run */
    bool is_deterministic;            /* the reproducer gives the same run each time, unless the memory's behaviour depends on time, addresses
                                         or chance */
    uint64_t event;                   /* with TMWATCH_STEPS: number of the wrong event within its round, from 1 */
    uint64_t solo_rollbacks;          /* if the memory makes no progress: how many times a transaction that ran by itself was rolled back;
                                         or 0 */
    tmwatch_plan phase;               /* the plan of the last phase */
    uint64_t untracked;               /* untracked synchronization: bits of tmwatch_untracked */
    char race[TMWATCH_MAX_RACE];      /* with TMWATCH_CXX, if no synchronization is untracked: the first data race, and where it is; or
                                         empty */
    char stale_loads[TMWATCH_MAX_STALE_LOADS]; /* with TMWATCH_CXX, lines: the loads of a violated round that did not return the newest value,
                                                  where they are in the program, and the stores that they missed; untracked
                                                  synchronization; or where interrupted threads are */
    char delayed[TMWATCH_MAX_RACE]; /* with TMWATCH_CXX, if nothing is wrong: a load that would violate the run if it were delayed past later
                                       stores and returned another thread's store, and where both are; or empty */
} tmwatch_bench_result;

/* Further statuses of the bench: no event was recorded for plan.timeout seconds; a transaction that ran by itself was rolled back again and
   again; the memory called tmwatch_bench_fail; the run was interrupted, and a thread did not return; a required function of the memory is
   null. */
enum { TMWATCH_HANG = 32, TMWATCH_NO_PROGRESS = 33, TMWATCH_FAILED = 34, TMWATCH_INTERRUPTED = 35, TMWATCH_MISSING_FUNCTION = 36 };

/*
Runs the plan on the memory, and stores the result in *result. When the verdict is no longer opaque so far, no further round begins, or with
TMWATCH_PERMITS no further attempt; some may have run by then.

It returns the first of these statuses that applies:
- TMWATCH_MISSING_FUNCTION: a required function of the memory is null.
- TMWATCH_BAD_SIZE: the number of threads is not 1 to 8 (with plan.crashes, 1 to 7).
- TMWATCH_BAD_REGISTERS: the number of registers is not 1 to 8.
- TMWATCH_BAD_START: as for tmwatch_open.
- TMWATCH_BAD_BOUNDS: another number of the plan is out of its range. Or plan.orders is not available, because of the schedule, because the
  memory is not compiled for libtmwatch_steps.a, or because it takes locks that the linker did not wrap.
- TMWATCH_NO_MEMORY: an allocation or the start of a thread failed, before or during the run.
- TMWATCH_WRONG_ANSWER: `run` returned true although tmwatch_run_body had not.
- TMWATCH_WRONG_PHASE: `run` called tmwatch_run_body twice in one attempt.
- TMWATCH_HANG: no event was recorded for plan.timeout seconds. Standard error then reports where each thread is. The threads keep running,
  so neither they nor the memory that they use is freed.
- TMWATCH_FAILED: the memory called tmwatch_bench_fail. Standard error has its `why`. The threads keep running, as after TMWATCH_HANG.
- TMWATCH_INTERRUPTED: tmwatch_bench_stop was called, but no event was recorded for half a second. The threads keep running, as after
  TMWATCH_HANG. Because this is no evidence about the memory's progress, *result is as after TMWATCH_OK; result->stale_loads names the function
  that each thread is in.
- TMWATCH_NO_PROGRESS: nothing was wrong, but a transaction of an audit was rolled back again and again. Standard error reports which one.
- TMWATCH_OK, or any other status that the watch returned.

*result is changed only if the function returns TMWATCH_OK, TMWATCH_HANG, TMWATCH_FAILED, TMWATCH_INTERRUPTED or TMWATCH_NO_PROGRESS.

The trace ends with event number `at`; if nothing is wrong, with the last event, or with the first attempts of the transaction that was rolled
back again and again. If something is wrong, it begins after the last audit before that event, whose values are its initial state. Otherwise
it begins with the phase, or with the earliest audit among the last 131,072 events. Its own `at` is that of the run minus result->skipped.

Allocates some 3 MiB and the memory of a watch, and frees them before it returns. With TMWATCH_CXX it forks a child process before the run, and
waits for it after the run; delayed loads are searched for there.
*/
TMWATCH_NODISCARD uint32_t tmwatch_bench(const tmwatch_memory *memory, const tmwatch_plan *plan, tmwatch_bench_result *result);

/* Called by `run`, as described at tmwatch_memory. */
TMWATCH_PURE bool tmwatch_begin_attempt(tmwatch_attempt *attempt);
TMWATCH_PURE bool tmwatch_run_body(tmwatch_attempt *attempt);

/*
Prints lines of JSON to `file` (docs/FORMATS.md): the report, as `tmwatch judge` prints it; a line on the rounds; the counts, as `tmwatch judge
--summary` prints them; and, if something is wrong, the options that reproduce it. These are marked as deterministic only if the plan has no
initial values of its own.

Then prints to standard error: if something is wrong, the options again, those of the phase, and a hint if the first transaction is wrong,
because then the registers probably have other initial values; if nothing is wrong, which conditions the run did not test; and in both cases
untracked synchronization.
*/
void tmwatch_bench_print(FILE *file, const tmwatch_bench_result *result);

/* Prints a plan as options of tmwatch_bench_main: its seed, and all values that are not the default. */
void tmwatch_bench_print_options(FILE *file, const tmwatch_plan *plan);

/* Prints the options of tmwatch_bench_main, a line each, under headings. The first heading, "What to run:", is left to the caller. */
void tmwatch_bench_print_help(FILE *file);

/* Pauses a thread of a bench as before and after a call. With TMWATCH_STEPS, the scheduler may switch to another thread here. Does nothing in a
   thread that is not a bench's. */
TMWATCH_PURE void tmwatch_pause(void);

/*
For a memory that sends requests to another process. With these calls, its functions report that their thread waits for that process. The
report holds until the thread's next step, after the function returned. With such a memory, threads sleep while they wait for one another
between rounds.

tmwatch_external_call: the thread sends a request, so the scheduler does not stall, however long that takes. Returns whether TMWATCH_STEPS
schedules this thread among others (not so during an audit).

tmwatch_external_blocked: another thread's transaction blocks the request. The other threads continue, and the scheduler does not pick this one
until its next step. Does nothing in a thread for which tmwatch_external_call returns false.
*/
TMWATCH_PURE bool tmwatch_external_call(void);
TMWATCH_PURE void tmwatch_external_blocked(void);

/* Returns the number of this thread among those of its bench, from 0; 0 in any other thread. */
TMWATCH_PURE unsigned tmwatch_thread(void);

/* Ends all benches of the process, and those that begin later, as if their time were up. A signal handler may call it. */
void tmwatch_bench_stop(void);

/* Ends the run because the memory cannot answer this thread's call, which then has no answer. The `why` of the first thread that calls it is
   printed to standard error. Does not return. */
__attribute__((noreturn)) void tmwatch_bench_fail(const char *why);

/* Reports, within a call, that the memory crashes now. Needs plan.crashes, and another schedule than TMWATCH_PERMITS. No further event of this
   phase is recorded, so calls that have no answer yet never get one in the record, whatever the functions return. When all of them have
   returned, `restart` is called. Then a thread that took no part in the phase runs an audit, which shows whether the committed values are
   still there. If the audit commits, another phase follows. */
void tmwatch_bench_crash(void (*restart)(void *memory));

/* Does nothing. With TMWATCH_STEPS it is called before the round plan.round, or before event plan.event of that round, so that a debugger can
   stop there. The first audit belongs to round 1. */
void tmwatch_breakpoint(void);

/* A step. Put it into the memory between two accesses of shared data if other threads may run in between, and into loops that wait. It compiles
   to nothing unless TMWATCH_PAUSES is defined before this header, for example with the compiler's -DTMWATCH_PAUSES. */
#ifdef TMWATCH_PAUSES
#define TMWATCH_PAUSE() tmwatch_pause()
#else
#define TMWATCH_PAUSE() ((void)0)
#endif

/*
Runs the bench with the options of a command line, and prints the result. Returns the exit status of `tmwatch judge`: the number of the
verdict (with --races fail, 1 also for a data race), or 4 if an option is wrong, an allocation failed, the memory failed, hung or made no
progress, or a file cannot be written. Standard error then gives the reason. --help and --version, if given by themselves, print their text
and return 0. The memory's registers must be 0 at first.

A file with .report after the name of the trace receives the printed result and the options; one with .steps, the steps of the wrong round; one
with .delayed, the trace with a delayed load.

The first SIGINT or SIGTERM that is not ignored ends the rounds, and a second one ends the program. The handlers that were set before are
restored at the end. After TMWATCH_HANG, TMWATCH_FAILED and TMWATCH_INTERRUPTED the program ends at once with _Exit, because threads
still use the objects that it would destroy.
*/
int tmwatch_bench_main(const tmwatch_memory *memory, int count, char **words);

/* Opens /dev/null for each of the descriptors 0 to 2 that is closed, so that no file that is opened later receives output that is meant for one
   of them. Returns whether all three are open. Reading from 0 then fails, and so does writing to 1, as before. tmwatch_bench_main calls this
   first, and does nothing else if one stays closed. A program that opens files before that calls it itself. */
bool tmwatch_bench_open_standard(void);

/*
A program defines this function if it creates a new memory in each process. It is called before the run in each process that runs the memory,
with the number of the job. If it returns false, that process ends.

With several jobs, or to shrink a run, tmwatch_bench_main runs the memory in child processes. They are forked from this one, so that its own
memory is unchanged. It does not fork if there are other threads, a debugger, or, unless the program defines this function, shared bytes,
files or sockets that may be written.
*/
bool tmwatch_bench_job(unsigned job, const tmwatch_plan *plan);

/*
A program whose memory is in another process defines this function, too. It returns whether that process computes or waits for a disk now.
Only a tenth of such time counts for plan.timeout. A violation is then reported as deterministic only if a second run, in a process of its own,
has reproduced it. The trace of any other violation is written to tmwatch-bench.trace, or if that file exists, to one with the next number,
unless --trace names a file.
*/
bool tmwatch_bench_computes(void);

/* Defines main for a tmwatch_memory. No semicolon follows. */
#define TMWATCH_BENCH_MAIN(memory)                          \
    int main(int count, char **words)                       \
    {                                                       \
        return tmwatch_bench_main(&(memory), count, words); \
    }

#ifdef __cplusplus
}
#endif

#endif
