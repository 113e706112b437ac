/* What these memories share. Each place where an order or a fence matters has a number: by -DWRONG=number that order is weakened, or that
   fence left out. Without it the memory is right. By -DDEFAULTS each order that matters is the default, seq_cst, and all fences are left out:
   then what is loaded and stored relaxed isn't ordered. */
#include "tmwatch_bench.h"
#include <stdatomic.h>

#ifndef WRONG
#define WRONG 0
#endif
#ifdef DEFAULTS
#define ORDER(number, right, wrong) memory_order_seq_cst
#define ALWAYS(order) memory_order_seq_cst
#define FENCE(number, order) ((void)0)
#else
#define ORDER(number, right, wrong) (WRONG == (number) ? memory_order_##wrong : memory_order_##right)
#define ALWAYS(order) memory_order_##order
#define FENCE(number, order)                           \
    do {                                               \
        if (WRONG != (number))                         \
            atomic_thread_fence(memory_order_##order); \
    } while (0)
#endif
#define LOAD(place, order) atomic_load_explicit(&(place), order)
#define STORE(place, value, order) atomic_store_explicit(&(place), value, order)
#define SWAP(place, held, value, order) atomic_compare_exchange_strong_explicit(&(place), held, value, order, memory_order_relaxed)
#define relaxed memory_order_relaxed
#define UNUSED __attribute__((unused))

enum { REGISTERS = 8, MOST_THREADS = 8 };

/* A transaction that keeps its writes until the commit, or what its words held before. */
struct tx {
    uint64_t snapshot;
    bool has_read[REGISTERS], writes[REGISTERS], holds[REGISTERS], has_written;
    uint64_t read[REGISTERS], written[REGISTERS], before[REGISTERS];
};

/* Keeps a write. */
UNUSED static bool keep_write(void *memory UNUSED, void *tx, unsigned reg, uint64_t value)
{
    struct tx *it = tx;
    it->has_written = it->writes[reg] = true;
    it->written[reg] = value;
    return true;
}

/* Rolls back what has only kept its writes. */
UNUSED static void forget(void *memory UNUSED, void *tx UNUSED) {}

#define BENCH_OF(tx_size, begin, read, write, commit, cancel)                                         \
    static bool add(void *memory, void *tx, unsigned reg, uint64_t addend, uint64_t *before)          \
    {                                                                                                 \
        return read(memory, tx, reg, before) && write(memory, tx, reg, *before + addend);             \
    }                                                                                                 \
    static const tmwatch_memory memory = {NULL, tx_size, begin, read, write, add, commit, cancel, NULL}; \
    TMWATCH_BENCH_MAIN(memory)
#define BENCH(begin, read, write, commit, cancel) BENCH_OF(sizeof(struct tx), begin, read, write, commit, cancel)
