// A memory of one lock in C++17 on the bench. It writes in place and keeps what was there, for its roll-back.
#include "tmwatch_bench.h"
#include <array>
#include <mutex>

namespace {

struct Memory {
    std::mutex lock;
    std::array<uint64_t, 8> words{};
};

// The words as the transaction has found them. All bytes 0 are one.
struct Tx {
    std::array<uint64_t, 8> found;
};

Memory words;

Memory &of(void *memory)
{
    return *static_cast<Memory *>(memory);
}

bool begin(void *memory, void *tx)
{
    of(memory).lock.lock();
    static_cast<Tx *>(tx)->found = of(memory).words;
    return true;
}

bool read(void *memory, void *, unsigned reg, uint64_t *value)
{
    *value = of(memory).words[reg];
    TMWATCH_PAUSE();
    return true;
}

bool write(void *memory, void *, unsigned reg, uint64_t value)
{
    of(memory).words[reg] = value;
    TMWATCH_PAUSE();
    return true;
}

bool add(void *memory, void *tx, unsigned reg, uint64_t addend, uint64_t *before)
{
    return read(memory, tx, reg, before) && write(memory, tx, reg, *before + addend);
}

bool commit(void *memory, void *)
{
    of(memory).lock.unlock();
    return true;
}

void cancel(void *memory, void *tx)
{
    of(memory).words = static_cast<Tx *>(tx)->found;
    of(memory).lock.unlock();
}

const tmwatch_memory memory = {&words, sizeof(Tx), begin, read, write, add, commit, cancel, nullptr};

} // namespace

TMWATCH_BENCH_MAIN(memory)
