/*
A memory after TL2 (Dice, Shalev and Shavit, DISC 2006) as a class on the bench. It keeps what it writes in a vector until it commits.

-DFAULT=READS: a read takes any version. LOOP: right, and it attempts again by itself, in a loop. ABORTS: right, and some writes abort. THROW,
THROW_INT: a read throws. If not each Tx is destroyed once, or none has added, or a memory that never begins is told as another, the exit status is 9.
*/
#include "tmwatch_bench.hpp"
#include <atomic>
#include <stdexcept>
#include <vector>

#ifndef FAULT
#define FAULT NONE
#endif

namespace {

enum Fault { NONE, READS, LOOP, ABORTS, THROW, THROW_INT };
constexpr Fault fault = FAULT;

std::atomic<long> live_count{0};
std::atomic<bool> has_added{false};
std::atomic<unsigned> writes{0};

struct Tl2 {
    /* `lock` is the version doubled, and odd while a commit holds it. */
    struct Word {
        std::atomic<uint64_t> lock{0}, value{0};
    };

    struct Written {
        unsigned reg;
        uint64_t value;
    };

    struct Tx {
        uint64_t snapshot = 0;
        std::vector<unsigned> reads;
        std::vector<Written> writes;
        volatile bool is_alive = true;
        Tx() { live_count++; }
        Tx(const Tx &) = delete;
        Tx &operator=(const Tx &) = delete;
        ~Tx()
        {
            is_alive = false;
            live_count--;
        }
    };

    Word words[8];
    std::atomic<uint64_t> clock{0};

    bool start(Tx &tx)
    {
        tx.snapshot = clock;
        tx.reads.clear();
        tx.writes.clear();
        return true;
    }

    bool read(Tx &tx, unsigned reg, uint64_t &value)
    {
        if (fault == THROW)
            throw std::runtime_error("no such register");
        if (fault == THROW_INT)
            throw 1;
        for (auto it = tx.writes.rbegin(); it != tx.writes.rend(); ++it)
            if (it->reg == reg) {
                value = it->value;
                return true;
            }
        uint64_t before = words[reg].lock;
        TMWATCH_PAUSE();
        value = words[reg].value;
        TMWATCH_PAUSE();
        tx.reads.push_back(reg);
        return fault == READS || (is_good(tx, before) && words[reg].lock == before);
    }

    bool write(Tx &tx, unsigned reg, uint64_t value)
    {
        tx.writes.push_back({reg, value});
        return fault != ABORTS || ++writes % 5 > 0;
    }

    bool add(Tx &tx, unsigned reg, uint64_t addend, uint64_t &before)
    {
        has_added = true;
        return read(tx, reg, before) && write(tx, reg, before + addend);
    }

    bool end(Tx &tx)
    {
        std::vector<unsigned> held;
        bool has_taken = take(tx, held);
        uint64_t now = held.empty() ? 0 : ++clock;
        TMWATCH_PAUSE();
        bool is_done = tx.writes.empty() || (has_taken && are_good(tx, held));
        for (const Written &written : tx.writes)
            if (is_done)
                words[written.reg].value = written.value;
        for (unsigned reg : held)
            words[reg].lock = is_done ? 2 * now : words[reg].lock - 1;
        return is_done;
    }

    static bool is_good(const Tx &tx, uint64_t lock) { return lock % 2 == 0 && lock / 2 <= tx.snapshot; }

    static bool has(const std::vector<unsigned> &regs, unsigned reg)
    {
        for (unsigned other : regs)
            if (other == reg)
                return true;
        return false;
    }

    bool take(const Tx &tx, std::vector<unsigned> &held)
    {
        for (const Written &written : tx.writes) {
            if (has(held, written.reg))
                continue;
            uint64_t lock = words[written.reg].lock;
            if (!is_good(tx, lock) || !words[written.reg].lock.compare_exchange_strong(lock, lock + 1))
                return false;
            held.push_back(written.reg);
        }
        return true;
    }

    bool are_good(const Tx &tx, const std::vector<unsigned> &held) const
    {
        for (unsigned reg : tx.reads)
            if (!has(held, reg) && !is_good(tx, words[reg].lock))
                return false;
        return true;
    }
};

struct Stepped : Tl2 {
    bool begin(Tx &tx) { return start(tx); }
    bool commit(Tx &tx) { return end(tx); }
    void abort(Tx &tx)
    {
        if (!tx.is_alive)
            std::abort();
    }
};

struct Looping : Tl2 {
    bool has_aborted(Tx &tx, tmwatch_attempt *attempt) { return !tmwatch_run_body(attempt) || !end(tx); }
    bool run(Tx &tx, tmwatch_attempt *attempt)
    {
        while (tmwatch_begin_attempt(attempt)) {
            start(tx);
            if (!has_aborted(tx, attempt))
                return true;
        }
        return false;
    }
};

/* No transaction begins here, and none adds. It never changes. */
struct Never {
    using Tx = Tl2::Tx;
    bool begin(Tx &) const { return false; }
    bool read(Tx &, unsigned, uint64_t &) const { return false; }
    bool write(Tx &, unsigned, uint64_t) const { return false; }
    bool commit(Tx &) const { return false; }
    void abort(Tx &) const {}
};

/* Whether a bench by a plan, of a memory that is const, returns forced aborts only, and none can commit. */
bool has_never_begun()
{
    const Never never{};
    tmwatch_plan plan = TMWATCH_PLAN;
    tmwatch_bench_result result;
    plan.rounds = 9;
    if (tmwatch_bench(never, plan, result) != TMWATCH_NO_PROGRESS || result.result.verdict != TMWATCH_OPAQUE_SO_FAR)
        return false;
    return result.solo_rollbacks > 0 && result.counts.forced_aborts == result.solo_rollbacks;
}

} // namespace

int main(int count, char **words)
{
    static std::conditional_t<fault == LOOP, Looping, Stepped> memory;
    if (!has_never_begun())
        return 9;
    int status = tmwatch_bench_main(memory, count, words);
    return live_count == 0 && (has_added || fault == READS) ? status : 9;
}
