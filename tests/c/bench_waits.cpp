/*
A memory of one lock on the bench, as bench_waits.c, with the locks of C++20: one of the table below, as the environment's LOCK says; the
word `names` alone prints those that the bench sees. By -DPLAIN its words are plain data. By CALL_ONCE, CALL_ONCE_THROWS and STATIC
transactions also look for what one in four of them makes. By PROMISE the lock is one that the bench doesn't see.
*/
#include "tmwatch_bench.hpp"
#include <array>
#include <atomic>
#include <barrier>
#include <chrono>
#include <condition_variable>
#include <cstdio>
#include <cstdlib>
#include <cstring>
#include <deque>
#include <future>
#include <latch>
#include <mutex>
#include <semaphore>
#include <shared_mutex>
#include <utility>

namespace locks {

using namespace std::chrono_literals;

#define UNTIL(done) \
    while (!(done)) \
    ;
#define MINE (mine = draw_ticket(1, many))
#define NEXT ((mine + 1) % many)
using Unique = std::unique_lock<std::mutex>;
using Timed = std::unique_lock<std::timed_mutex>;

/* Each lock: its name, how it is taken and how it is given back. */
#define KINDS                                                                                                                              \
    KIND(MUTEX, mutex.lock(), mutex.unlock())                                                                                              \
    KIND(RECURSIVE, (recursive.lock(), recursive.lock()), (recursive.unlock(), recursive.unlock()))                                        \
    KIND(TIMED, UNTIL(timed.try_lock_for(later)), timed.unlock())                                                                          \
    KIND(RECURSIVE_TIMED, UNTIL(recursive_timed.try_lock_for(later)), recursive_timed.unlock())                                            \
    KIND(SHARED, shared.lock(), shared.unlock())                                                                                           \
    KIND(SHARED_TIMED, UNTIL(shared_timed.try_lock_for(later)), shared_timed.unlock())                                                     \
    KIND(CONDITION, take_condition<Unique>(mutex, [](auto &lock) { condition.wait(lock); }), give_condition(mutex, condition, true))       \
    KIND(CONDITION_FOR, take_condition<Unique>(mutex, [](auto &lock) { condition.wait_for(lock, later); }),                                \
         give_condition(mutex, condition, false))                                                                                          \
    KIND(ANY, take_condition<Timed>(timed, [](auto &lock) { any.wait(lock); }), give_condition(timed, any, true))                          \
    KIND(ANY_FOR, take_condition<Timed>(timed, [](auto &lock) { any.wait_for(lock, later); }), give_condition(timed, any, false))          \
    KIND(SEMAPHORE, semaphore.acquire(), semaphore.release())                                                                              \
    KIND(SEMAPHORE_FOR, UNTIL(semaphore.try_acquire_for(later)), semaphore.release())                                                      \
    KIND(LATCH, latches[MINE].wait(), latches[NEXT].count_down())                                                                          \
    KIND(BARRIER, barriers[MINE].arrive_and_wait(), (void)barriers[NEXT].arrive())                                                         \
    KIND(ATOMIC_WAIT, while (word.exchange(1, std::memory_order_acquire)) word.wait(1, std::memory_order_relaxed),                         \
         (word.store(0, std::memory_order_release), word.notify_one()))                                                                    \
    KIND(FLAG_WAIT, while (flag.test_and_set(std::memory_order_acquire)) flag.wait(true, std::memory_order_relaxed),                       \
         (flag.clear(std::memory_order_release), flag.notify_one()))                                                                       \
    KIND(CALL_ONCE, take_once(), mutex.unlock())                                                                                           \
    KIND(CALL_ONCE_THROWS, take_thrown(), mutex.unlock())                                                                                  \
    KIND(STATIC, take_static(), mutex.unlock())                                                                                            \
    KIND(PROMISE, promises[MINE].get_future().wait(), promises[NEXT].set_value())
#define KIND(name, take, give) name,
enum Kind { KINDS };
#undef KIND
#define KIND(name, take, give) #name,
constexpr const char *names[] = {KINDS};
#undef KIND
Kind kind;

constexpr unsigned size = 8, many = 1 << 17, statics = 128;
constexpr auto later = 1000s;

std::mutex mutex;
std::recursive_mutex recursive;
std::timed_mutex timed;
std::recursive_timed_mutex recursive_timed;
std::shared_mutex shared;
std::shared_timed_mutex shared_timed;
std::condition_variable condition;
std::condition_variable_any any;
std::counting_semaphore<9> semaphore{1};
std::atomic<int> word;
std::atomic_flag flag;
bool is_taken;
std::deque<std::latch> latches;
std::deque<std::barrier<>> barriers;
std::deque<std::promise<void>> promises;
std::deque<std::once_flag> onces;
unsigned made[many];
std::atomic<unsigned> tickets;
thread_local unsigned mine;

unsigned draw_ticket(unsigned each, unsigned below) { return tickets.fetch_add(1, std::memory_order_relaxed) / each % below; }

template <typename Lock, typename Waits, typename Mutex> void take_condition(Mutex &of, Waits waits)
{
    Lock lock(of);
    while (is_taken)
        waits(lock);
    is_taken = true;
}

template <typename Mutex, typename Condition> void give_condition(Mutex &of, Condition &condition, bool is_to_one)
{
    std::lock_guard lock(of);
    is_taken = false;
    if (is_to_one)
        condition.notify_one();
    else
        condition.notify_all();
}

/* Statics, of which each is made by the first transaction that looks for it. */
template <unsigned N> unsigned find_static()
{
    static const unsigned *const it = new unsigned(N + 1);
    return *it;
}

template <unsigned... N> constexpr auto all_statics(std::integer_sequence<unsigned, N...>)
{
    return std::array<unsigned (*)(), sizeof...(N)>{find_static<N>...};
}

constexpr auto find_statics = all_statics(std::make_integer_sequence<unsigned, statics>());

void take_static()
{
    unsigned now = draw_ticket(4, statics);
    if (find_statics[now]() != now + 1)
        std::abort();
    mutex.lock();
}

void take_once()
{
    unsigned now = draw_ticket(4, many);
    std::call_once(onces[now], [now] { made[now] = now + 1; });
    if (made[now] != now + 1)
        std::abort();
    mutex.lock();
}

/* One try in two throws. */
void take_thrown()
{
    static std::atomic<unsigned> tries;
    unsigned now = draw_ticket(4, many);
    auto make = [now] {
        if (tries.fetch_add(1, std::memory_order_relaxed) % 2 == 0)
            throw now;
        made[now] = now + 1;
    };
    for (bool is_made = false; !is_made;)
        try {
            std::call_once(onces[now], make);
            is_made = true;
        } catch (unsigned) {
        }
    if (made[now] != now + 1)
        std::abort();
    mutex.lock();
}

void take()
{
#define KIND(name, take, give) \
    if (kind == name)          \
        take;
    KINDS
#undef KIND
}

void give()
{
#define KIND(name, take, give) \
    if (kind == name)          \
        give;
    KINDS
#undef KIND
}

struct Locked {
    struct Tx {
        std::array<uint64_t, size> before;
    };
#ifdef PLAIN
    std::array<uint64_t, size> words{};
    uint64_t load(unsigned reg) const { return words[reg]; }
    void store(unsigned reg, uint64_t value) { words[reg] = value; }
#else
    std::array<std::atomic<uint64_t>, size> words{};
    uint64_t load(unsigned reg) const { return words[reg].load(std::memory_order_relaxed); }
    void store(unsigned reg, uint64_t value) { words[reg].store(value, std::memory_order_relaxed); }
#endif

    bool begin(Tx &tx)
    {
        take();
        for (unsigned reg = 0; reg < size; reg++)
            tx.before[reg] = load(reg);
        return true;
    }

    bool read(Tx &, unsigned reg, uint64_t &value)
    {
        value = load(reg);
        TMWATCH_PAUSE();
        return true;
    }

    bool write(Tx &, unsigned reg, uint64_t value)
    {
        store(reg, value);
        TMWATCH_PAUSE();
        return true;
    }

    bool commit(Tx &)
    {
        give();
        return true;
    }

    void abort(Tx &tx)
    {
        for (unsigned reg = 0; reg < size; reg++)
            store(reg, tx.before[reg]);
        give();
    }
};

} // namespace locks

using namespace locks;

int main(int count, char **words)
{
    static Locked memory;
    const char *wanted = std::getenv("LOCK");
    for (unsigned i = 0; i <= PROMISE; i++)
        if (wanted && std::strcmp(names[i], wanted) == 0)
            kind = static_cast<Kind>(i);
    if (count == 2 && std::strcmp(words[1], "names") == 0) {
        for (unsigned i = 0; i < PROMISE; i++)
            std::puts(names[i]);
        return 0;
    }
    for (unsigned i = 0; i < many; i++) {
        latches.emplace_back(1);
        barriers.emplace_back(2);
        promises.emplace_back();
        onces.emplace_back();
    }
    latches[0].count_down();
    (void)barriers[0].arrive();
    promises[0].set_value();
    return tmwatch_bench_main(memory, count, words);
}
