/* Operations, and how they are made on the simulated memory: what the tests of the model share. Each operation is made by one thread while
   no other runs. */
#include "../../bench-c/instrumented/orders.c"

enum kind { END, READ, WRITE, ADD, SWAP, WEAK_SWAP, FENCE, BEGINS, ENDS, LOCK, SHARE, UNLOCK };
enum { ACQUIRE = __ATOMIC_ACQUIRE, BOTH = __ATOMIC_ACQ_REL, RECORDED = 64 };
enum word { X, Y, Z, WORDS };

/* An operation on a word, by a value, and where what is read goes. A swap is a compare-and-swap from `expected`. */
struct operation {
    enum kind kind;
    enum word word;
    uint64_t value;
    int order;
    unsigned result;
    uint64_t expected;
    int failed;
};

/* What memory holds. */
static _Alignas(16) _Atomic uint64_t words[WORDS];
static const atomic_uint_least64_t recorded;

static tmwatch_access access_of(tmwatch_simulation *orders, unsigned thread, const struct operation *it)
{
    return (tmwatch_access){orders, thread, it, &words[it->word], sizeof words[0], it->order};
}

/* Makes a compare-and-swap: whether it succeeds. */
static bool make_swap(const tmwatch_access *access, const struct operation *it, uint64_t *held)
{
    *held = it->expected;
    enum tmwatch_compared how = tmwatch_orders_compare(access, held, it->failed, it->kind == WEAK_SWAP);
    if (how == TMWATCH_FAILS)
        return false;
    if (how == TMWATCH_TAKES_NEWEST) {
        if (words[it->word] != it->expected)
            abort();
        words[it->word] = it->value;
    }
    tmwatch_orders_change(access, it->value);
    return true;
}

/* Adds, and returns what was there. */
static uint64_t make_add(const tmwatch_access *access, const struct operation *it)
{
    uint64_t held;
    bool is_newest = tmwatch_orders_take(access, &held);
    if (is_newest)
        words[it->word] = held + it->value;
    tmwatch_orders_change(access, held + it->value);
    return held;
}

/* Makes an operation: whether it has stored. *read is what it has read, if it reads. */
static bool make(tmwatch_simulation *orders, unsigned thread, const struct operation *it, uint64_t *read)
{
    tmwatch_access access = access_of(orders, thread, it);
    switch (it->kind) {
    case READ:
        *read = tmwatch_orders_load(&access);
        return false;
    case WRITE:
        if (tmwatch_orders_store(&access, it->value))
            words[it->word] = it->value;
        return true;
    case ADD:
        *read = make_add(&access, it);
        return true;
    case SWAP:
    case WEAK_SWAP:
        return make_swap(&access, it, read);
    case FENCE:
        tmwatch_orders_fence(&access);
        return false;
    case BEGINS:
        tmwatch_orders_begins(orders, thread);
        return false;
    case ENDS:
        tmwatch_orders_ends(orders, thread);
        return false;
    case LOCK:
    case SHARE:
        tmwatch_orders_locked(orders, thread, words, it->kind == SHARE);
        return false;
    case UNLOCK:
        tmwatch_orders_unlocks(orders, thread, words);
        return false;
    case END:
        break;
    }
    return false;
}

/* Begins a run of a program: all words are 0, and all threads know that. */
static void begin_run(tmwatch_simulation *orders)
{
    memset((void *)words, 0, sizeof words);
    tmwatch_orders_round(orders);
}
