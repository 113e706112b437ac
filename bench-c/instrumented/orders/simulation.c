/* What is simulated, and what is kept of it. */

enum { MOST_STORES = 16, MOST_SEQUENTIAL = 32, MOST_PLACES = 1024, MOST_LOCKS = 64, MOST_LOADS = 1024, KEPT_DEVIATIONS = 1 << 15 };
enum { CELL_BITS = 12, CELLS = 1 << CELL_BITS };
/* No place lies in two words of eight bytes, each of which has a list. So many words at most are looked for one by one. */
enum { WORD_BITS = 3, WORD_BYTES = 1 << WORD_BITS, HEAD_BITS = 11, HEADS = 1 << HEAD_BITS, FEW_WORDS = 16 };
static const uint64_t apart_words = 0x9E3779B97F4A7C15;

/* A store: what an acquire that reads it gets to know; at which step each thread first read or wrote it, also by a sequentially consistent
   operation: whoever knows that step reads no older one; and the last such operations before its readers, and before later stores. */
struct store {
    uint64_t value;
    struct clock releases, seen, ordered, before_reads, before_stores;
    bool is_change; /* a read-modify-write, of the store before it: none comes between */
    uint8_t thread;
    uint32_t attempt;   /* of that thread */
    const void *caller; /* where it was made, or null: it was there before */
};

/* What comes before a point of the order of sequentially consistent operations: each thread's last, and what the fences among them know. */
struct past {
    struct clock last, known;
};

/* Such an operation of a thread: its step, that of the thread's last fence, if there was one, and its past, itself included. */
struct sequential {
    uint32_t step, fence;
    struct past past;
};

/* A thread's last read of a place: at which step, in which attempt, and where. */
struct read {
    uint32_t step, attempt;
    const void *caller;
};

/* The newest store is the last. */
struct place {
    uintptr_t at;
    unsigned bytes, count; /* 0 bytes: none is here */
    uint32_t number;       /* of the round's histories */
    uint16_t next;
    uint8_t stale[THREADS]; /* how many loads in a row a thread had that weren't of the newest */
    struct read read[THREADS];
    struct store stores[MOST_STORES];
};

/* What was released when the lock was given back: by those that had it alone, and by all. */
struct lock {
    const volatile void *at;
    unsigned sharers; /* which threads share it */
    struct clock alone, all;
};

/* What orders threads and isn't simulated. */
enum untracked { UNMARKED_STORE, UNMARKED_LOCK, UNTRACKED_KINDS };

enum deviation_kind { STALE_LOAD, LATE_STORE };

/* The last store of another thread that a thread has read: its step, and up to which it releases; where both are; whether an acquire followed. */
struct met {
    uint32_t step, released;
    const void *stored, *loaded;
    bool is_acquired;
};

/* What may forbid a deviation: of message passing a release and an acquire, or the half that is missing; of store buffering, fences. */
enum cure { BOTH_HALVES = 1, ONE_HALF = 2, FENCES = 4 };

/* An access that has missed newer stores: where, and where the next one is; which later store of that thread was read before; and for store
   buffering, where the thread had stored what the other one has missed, and where the other one has read. */
struct deviation {
    uint64_t event; /* how many events preceded */
    const void *caller, *other;
    struct met met;
    const void *stored, *read;
    uint8_t cures;
    bool is_released;
    uint8_t kind, thread, other_thread;
    uint8_t newer; /* how many stores are newer */
};

/* The last plain accesses of a word by each thread: their step, which bytes, and where. */
enum access_kind { PLAIN_LOAD, PLAIN_STORE, PLAIN_KINDS, ATOMIC_LOAD = PLAIN_KINDS, ATOMIC_STORE };
struct last {
    uint32_t step;
    uint8_t bytes;
    const void *caller;
};
struct cell {
    uintptr_t word;
    uint32_t round;
    uint8_t threads[PLAIN_KINDS]; /* which have such an access */
    struct last last[PLAIN_KINDS][THREADS];
};

/* The first race: who met whom, and where; null if that isn't kept. */
struct race {
    unsigned thread, other;
    enum access_kind kind, other_kind;
    const void *caller, *other_caller;
};

/* A relaxed load of a round, in a place's history. `answers`: a read has returned its value. `is_closed`: it may return no later store any more. */
struct load {
    uint64_t value;
    uint32_t index, step, place;
    unsigned thread;
    const void *caller;
    bool answers, is_closed, is_made;
};

struct tmwatch_simulation {
    /* Of a round: what threads know; what transactions that have ended and accesses beside the table have made known; each thread's first
       sequentially consistent fence, what comes before all that follows, and how many operations of each thread are kept; the odds. */
    struct view views[THREADS];
    struct clock ended, untracked;
    struct met met[THREADS][THREADS];
    struct clock fences;
    struct past past;
    unsigned operations_used[THREADS];
    atomic_uint_least32_t stale, late; /* the watchdog ends them */
    unsigned used, locks_used, loads_used;
    uint32_t histories, loads_made;
    uint16_t heads[HEADS];
    /* Of all rounds. */
    struct lock locks[MOST_LOCKS];
    struct place places[MOST_PLACES];
    struct sequential operations[THREADS][MOST_SEQUENTIAL];
    struct clock made;   /* the last sequentially consistent operations that come before who comes after this access */
    struct place *taken; /* of the read-modify-write that is under way: its place, or null, and which store it has read */
    unsigned taken_store;
    uint64_t draws;
    atomic_uint_least64_t deviated; /* (this, untracked_at and has_race say what may be read while a thread is stuck) */
    uint32_t round;
    const atomic_uint_least64_t *recorded;
    const void *_Atomic untracked_at[UNTRACKED_KINDS]; /* where each was first met, or null */
    atomic_bool has_race;
    struct race race;
    tmwatch_delays *delays; /* or null: none is looked for */
    uint64_t accesses;      /* a hash of all that were made */
    struct load loads[MOST_LOADS];
    struct cell cells[CELLS];
    struct deviation deviations[KEPT_DEVIATIONS];
};
