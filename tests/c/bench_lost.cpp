/*
A right memory as a class on the bench, and ways in which it loses progress. It has one clock. Each word has a version, a lock, and a mark
for each thread that reads it. A transaction keeps its locks and marks to its end, writes in place, and rolls back rather than wait. It reads
nothing that is newer than its beginning.

-DFAULT=LOCK: a transaction that is rolled back keeps its locks. MARK: it keeps its marks. WRAP: a transaction has eight bits of the clock.
CHANCE: right, but half of the commits are rolled back by chance, as those of processors are.
*/
#include "tmwatch_bench.hpp"
#include <array>
#include <atomic>

#ifndef FAULT
#define FAULT NONE
#endif

namespace {

enum Fault { NONE, LOCK, MARK, WRAP, CHANCE };
constexpr Fault fault = FAULT;
constexpr unsigned size = 8;

struct Marked {
    struct Word {
        std::atomic<uint64_t> value{0}, version{0};
        std::atomic<bool> is_locked{false};
        std::array<std::atomic<bool>, size> is_read{};
    };

    struct Tx {
        uint64_t began = 0;
        std::array<bool, size> reads{}, writes{};
        std::array<uint64_t, size> before{};
    };

    std::array<Word, size> words;
    std::atomic<uint64_t> clock{0}, draws{0};

    bool begin(Tx &tx)
    {
        tx.began = fault == WRAP ? clock % 256 : clock.load();
        return true;
    }

    bool read(Tx &tx, unsigned reg, uint64_t &value)
    {
        Word &word = words[reg];
        tx.reads[reg] = true;
        word.is_read[tmwatch_thread()] = true;
        TMWATCH_PAUSE();
        if ((word.is_locked && !tx.writes[reg]) || word.version > tx.began)
            return roll_back(tx);
        value = word.value;
        return true;
    }

    bool write(Tx &tx, unsigned reg, uint64_t value)
    {
        Word &word = words[reg];
        if (!tx.writes[reg] && word.is_locked.exchange(true))
            return roll_back(tx);
        if (!tx.writes[reg])
            tx.before[reg] = word.value;
        tx.writes[reg] = true;
        TMWATCH_PAUSE();
        for (unsigned other = 0; other < size; other++)
            if (other != tmwatch_thread() && word.is_read[other])
                return roll_back(tx);
        word.value = value;
        return true;
    }

    bool commit(Tx &tx)
    {
        if (fault == CHANCE && ++draws * 0x9E3779B97F4A7C15 >> 63 == 0)
            return roll_back(tx);
        uint64_t now = ++clock;
        for (unsigned reg = 0; reg < size; reg++)
            if (tx.writes[reg])
                words[reg].version = now;
        give_back(tx, true, true);
        return true;
    }

    void abort(Tx &tx) { roll_back(tx); }

    bool roll_back(Tx &tx)
    {
        for (unsigned reg = 0; reg < size; reg++)
            if (tx.writes[reg])
                words[reg].value = tx.before[reg];
        give_back(tx, fault != LOCK, fault != MARK);
        return false;
    }

    void give_back(const Tx &tx, bool gives_locks, bool gives_marks)
    {
        for (unsigned reg = 0; reg < size; reg++) {
            if (tx.writes[reg] && gives_locks)
                words[reg].is_locked = false;
            if (tx.reads[reg] && gives_marks)
                words[reg].is_read[tmwatch_thread()] = false;
        }
    }
};

} // namespace

int main(int count, char **words)
{
    static Marked memory;
    return tmwatch_bench_main(memory, count, words);
}
