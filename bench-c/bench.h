/* What the files of the bench share. */
#include "instrumented/found.h"
#include "instrumented/step.h"
#include "tmwatch_permits.h"
#include <errno.h>
#include <fcntl.h>
#include <inttypes.h>
#include <pthread.h>
#include <semaphore.h>
#include <signal.h>
#include <stdlib.h>
#include <string.h>
#include <sys/mman.h>
#include <sys/prctl.h>
#include <sys/resource.h>
#include <sys/stat.h>
#include <sys/syscall.h>
#include <sys/wait.h>
#include <unistd.h>

/* A look comes after each LOOK rounds, or as many attempts as those may have. KEPT are the events between two looks, and those not judged yet;
   STARTS, by steps, the rounds from a violation to the last. By all, the first legs go by steps, and a leg has LEG_ROUNDS at most. */
enum { MOST_THREADS = 8, MOST_REGISTERS = 8, MOST_ATTEMPTS = 8, MOST_USES = 16, MOST_CALLS = 2 * MOST_USES + 1 };
enum { LOOK = 64, KEPT = 1 << 17, STARTS = 1 << 13, LISTED = 1 << 14, STEPS_LEGS = 20, LEG_ROUNDS = 1000 };
enum { MOST_LOOKED = KEPT / 2 /* events of one look */, FIRST_ATTEMPTS = 8 /* of a look: what is written of one that is given up */ };
enum { SECOND_US = 1000000 /* microseconds */, APART = 128 /* bytes */ };

/* An event. `looks` is set if it ends a transaction that has read all registers alone. */
struct kept {
    uint64_t value;
    uint8_t thread, reg;
    char letter;
    bool looks;
};

/* A transaction: its calls, the last of which asks to commit or abort; how many attempts were begun, or all if none is to follow; the most. */
struct transaction {
    size_t count;
    tmwatch_call calls[MOST_CALLS];
    uint64_t made, most;
};

/* A thread, its transaction of this round, and how far that is: by the turn the library says what is recorded next, and takes nothing else. */
struct tmwatch_attempt {
    struct bench *bench;
    tmwatch_recorder *recorder;
    void *tx;
    unsigned thread;
    const struct schedule *by; /* the bench's, or a look's */
    struct transaction now;
    tmwatch_cursor cursor;
    atomic_uint inside;                  /* in which function of the memory it is, and with which register (a `place`, and 256 times it) */
    bool is_live, has_called, has_asked; /* an attempt is recorded and not ended; its calls are made; it has asked to abort */
    bool is_put_off;                     /* by permits, a look comes before its next attempt */
    unsigned writes;                     /* which registers the attempt has asked to write */
    uint64_t tried;                      /* how many attempts were begun, of all transactions */
    uint64_t uses, left;                 /* in this round: how many registers a transaction uses, and how many attempts are left */
    atomic_uint_least64_t begun;         /* by permits: how many transactions were begun */
    uint64_t written;                    /* how many values were drawn to be written */
    atomic_bool is_recording;            /* it writes what comes next, `kept` and `rejected_at`, unless the record is closed */
    uint64_t keeps;                      /* how many events it has kept */
    uint64_t stores;                     /* how many writes and adds were recorded */
    uint64_t look_from, look_began;      /* how many it had kept when its look began, and when that was */
    uint64_t before;                     /* how many commits were asked for when the attempt began */
    atomic_uint_least64_t foreign;       /* the most commits of others within an attempt */
    tmwatch_step_how how;                /* its accesses are made */
    const void *caller;                  /* where its last step returns to */
    uint64_t draws, addends, pauses;     /* what is drawn for transactions, for what they add, and for pauses: each by the seed alone */
};

/* By steps, one thread runs at a time: the runner. At a step it may hand over to another, as drawn from the seed. */
enum { NOBODY = -1, MOST_CHANGES = 4 };

/* A step of the memory: how many events there were, where it returns to, and whose it is. */
struct listed {
    uint64_t recorded;
    const void *at;
    unsigned thread;
};

struct steps {
    sem_t free;               /* whether nobody has locked the sets and the runner, which a stall changes too */
    atomic_int runner, awake; /* who may run, or nobody; and who does so, in the memory or beside it, where it may be blocked */
    unsigned ready;           /* which threads have not ended the round */
    unsigned waiting;         /* which of them wait for a lock that another of them holds, or for a condition */
    unsigned lost;            /* which of those wait for a signal that nobody can send any more, unless one of them goes on */
    unsigned stuck;           /* which of them were running when a stall came, or wait outside, and have made no step since */
    const volatile void *lock[MOST_THREADS];
    uint64_t draws;
    uint64_t odds; /* by walk: one step in so many hands over; 0: by priorities */
    uint64_t priority[MOST_THREADS], lowest;
    uint64_t changes, change[MOST_CHANGES]; /* after which steps of the round the runner gets the lowest priority */
    uint64_t step, spin;                    /* the round's steps, and the pauses since the runner's last call or turn */
    uint64_t length[2];                     /* about how many steps a round has, times 16: an even one, a mixed one */
    bool is_mixed;                          /* of the round */
    atomic_bool has_buffers;                /* stores may be delayed now: never in a look, nor once a thread waits untracked */
    atomic_uint_least64_t steps, context_switches, stalls, waits;
    atomic_bool asks; /* the runner asks outside, so that no stall comes */
    sem_t go[MOST_THREADS];
    atomic_int tid[MOST_THREADS];
    atomic_uint_least64_t recorded;       /* how many events */
    atomic_uint_least64_t starts[STARTS]; /* how many events precede a round */
    atomic_uint_least64_t begun;          /* the round that has begun last */
    atomic_uint_least64_t ordered;        /* how many rounds were to have stale loads or delayed stores */
    struct listed listed[LISTED];         /* written where the steps are locked, until the record is closed */
    atomic_uint_least64_t inner;          /* how many steps were the memory's own */
};

/* Where a thread is: in none of the memory's functions, or in one. */
enum place { OUTSIDE, IN_BEGIN, IN_READ, IN_WRITE, IN_ADD, IN_COMMIT, IN_ABORT, IN_RUN };

/* A thread of a session, which runs in one leg after another. */
struct worker {
    pthread_t thread;
    sem_t goes;
    tmwatch_attempt *attempt; /* of the next leg, or null, where none follows */
    _Alignas(max_align_t) char tx[];
};

/* What goes on from one leg to the next. */
struct session {
    const tmwatch_memory *memory;
    const tmwatch_plan *plan; /* as it was given */
    struct worker *workers[MOST_THREADS];
    unsigned started; /* how many threads it has */
    uint64_t written[MOST_THREADS], looked;
    uint64_t start[MOST_REGISTERS];  /* what the registers hold */
    uint64_t began, shown;           /* when the session began, and when its progress was last shown: microseconds */
    uint32_t stuck;                  /* if no event has come for too long: the status by which the run ends, or 0 */
    bool has_steps, asks, is_slow;   /* the memory has steps of its own; it asks elsewhere, and then a leg by steps has taken long */
    uint64_t took;                   /* how long the last leg by steps has taken: microseconds */
    tmwatch_bench_result all;        /* of all legs before this one */
    struct second_runs *second_runs; /* or null: none are to be made */
};

struct bench {
    struct session *session; /* of the judge alone: threads that are stuck outlive it */
    tmwatch_memory memory;
    tmwatch_plan plan;
    const struct schedule *schedule;
    unsigned workers;   /* how many threads the session has */
    uint64_t most_time; /* how many microseconds the leg may take; 0: any time */
    tmwatch watch;
    tmwatch_recorder recorders[MOST_THREADS];
    tmwatch_attempt parts[MOST_THREADS];
    struct kept kept[KEPT];
    atomic_uint come, here, ended; /* how many threads have come, how many wait for the others, and how many have ended */
    atomic_uint_least64_t round;
    tmwatch_permits permits;
    atomic_uint_least64_t attempted, next_look; /* by permits: how many attempts were begun, and at how many a look is due */
    struct steps steps;
    tmwatch_simulation *orders; /* by the orders of C++20: the memory that is simulated; or null */
    tmwatch_delays *delays;     /* of that memory: loads that may be delayed are found, or one is made; or null */
    atomic_bool is_told;        /* of that memory is told: no access is simulated any more */
    struct watchdog {
        uint64_t looked, steps, clock, used, sleeps;
        int runner;
        bool computes;                      /* the runner makes no step, and doesn't sleep */
    } watchdog;                             /* what the watchdog of the steps has seen last */
    atomic_uint_least32_t fault;            /* the first status of the watch that wasn't to be */
    atomic_bool stops, is_late;             /* no round is to follow, since something is wrong, or since the time is up */
    atomic_bool has_no_time;                /* no leg is to follow, since the time of all is up */
    atomic_bool is_over;                    /* no round follows */
    atomic_bool is_closed;                  /* nothing more is recorded: the result is read while threads are stuck, or come back */
    void (*_Atomic restart)(void *memory);  /* after a crash, so that nothing is recorded but a look; or null */
    atomic_bool has_asked;                  /* the memory asks outside */
    unsigned running;                       /* how many threads have a part now */
    uint64_t idle;                          /* for how many microseconds no event has come, nor anything else */
    atomic_uint_least64_t asked, committed; /* how many commits are recorded, or about to be; and how many are recorded */
    atomic_uint refused, stored; /* since the last look, which registers were written by attempts that were rolled back, or committed */
    uint64_t looked;             /* how many values looks have written */
    atomic_bool has_rejected;    /* a look was given up, since it was rolled back again and again: */
    struct transaction rejected; /* this one */
    unsigned rejected_thread;    /* whose look that was */
    uint64_t rejected_at;        /* how many events there were after the first attempts of the last look */
};

/* How threads go, by a schedule or in a look. What is null isn't done. */
struct schedule {
    bool (*next)(tmwatch_attempt *);                             /* whether the thread makes another share, once it may */
    void (*pause)(tmwatch_attempt *, unsigned pauses);           /* beside a call, or in the memory */
    bool (*enter)(tmwatch_attempt *);                            /* whether another attempt begins, */
    void (*look)(tmwatch_attempt *);                             /* or is put off for this */
    void (*leave)(tmwatch_permits *);                            /* an attempt has ended */
    void (*record)(struct bench *);                              /* an event is about to be recorded */
    void (*count)(const struct bench *, tmwatch_bench_result *); /* how many rounds a leg had */
    bool repeats, looks; /* a run is what its seed says, so no time ends a leg unless the memory asks outside; nobody else goes */
};

#define TO(field) offsetof(tmwatch_plan, field)
