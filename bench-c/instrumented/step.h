/* What the bench (instrumented_step.c) has for the objects that are linked with the memory: those of this folder. */
#include "orders.h"
#include "tmwatch_bench.h"

/* A delayed store: `put` stores so many bytes. */
struct tmwatch_delayed_store {
    void (*put)(uintptr_t to, uint64_t value);
    uintptr_t to;
    uint64_t value;
    unsigned bytes;
};

/* How a thread's accesses are made. Its store buffer has a lock, because the watchdog drains it if the thread is blocked. */
enum { TMWATCH_BUFFERED = 8 };
typedef struct tmwatch_step_how {
    const atomic_bool *has_buffers; /* stores may be delayed now */
    bool has_plain;                 /* plain accesses are steps too */
    atomic_bool is_undelayed;       /* a store wasn't buffered, since nothing says when its block is given back */
    uint64_t draws;
    uintptr_t own[2], own_end[2]; /* the thread's stack, and its transaction's bytes */
    atomic_bool is_locked;
    atomic_uint buffered; /* the thread alone adds */
    struct tmwatch_delayed_store buffer[TMWATCH_BUFFERED];
} tmwatch_step_how;

/* A step of this thread, with so many pauses, which returns to that place; and the place that the function here returns to. */
void tmwatch_step_at(const void *caller, unsigned pauses);
#define TMWATCH_CALLER __builtin_return_address(0)

/* For a function that is a part of what it is called in. */
#define TMWATCH_PART static inline __attribute__((always_inline))

#define UNUSED __attribute__((unused))

/* This thread's, or null if it isn't one of a bench. */
tmwatch_step_how *tmwatch_step_accesses(void);

/* In libtmwatch_steps.a, if that is linked. All delayed stores of this thread come out; or of a thread those that do before a step with so many
   pauses, or by 0 all. */
extern void tmwatch_step_drain(void) __attribute__((weak));
extern void tmwatch_step_drain_of(tmwatch_step_how *how, unsigned pauses) __attribute__((weak));

/* Whether block_frees.c sees that a block is given back. */
bool tmwatch_step_sees_free(void);

/* Whether this thread is one of a bench by steps, and not in a look or beside a round. Those below are for such a thread. */
bool tmwatch_step_is_run(void);

/* How a wait has ended: no other thread is able to run; others have run, and none is able to any more; or what is waited for is free. */
enum tmwatch_step_waited { TMWATCH_STEP_ALONE, TMWATCH_STEP_OTHERS, TMWATCH_STEP_FREED };

/* The memory that is simulated, if such a thread's is; or null. */
tmwatch_simulation *tmwatch_step_orders(void);

/* Lets others run until this lock or condition, which one of them has to free, is free. Who waits for a signal goes on without one only if
   another thread may send it that isn't one of the bench. */
enum tmwatch_step_waited tmwatch_step_wait(const volatile void *lock, bool is_for_signal);

/* A function of locks that the program calls, if the linker wraps none, so that what they order isn't seen; or null. */
const char *tmwatch_step_unwrapped(void);

/* Those that wait for this lock or condition are able to run; or one of them is, as drawn. */
void tmwatch_step_free(const volatile void *lock, bool is_for_one);

/* For a lock that isn't one of C, in any thread (waits.c); and a block of a type that isn't one of C is given back (block_frees.c). */
bool tmwatch_lock_tried(void);
bool tmwatch_lock_awaited(const volatile void *lock);
void tmwatch_lock_taken(const volatile void *lock);
void tmwatch_lock_returning(const volatile void *lock);
void tmwatch_lock_returned(const volatile void *lock);
void tmwatch_step_gives_back(const void *block, size_t size);
