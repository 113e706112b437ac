/*
A memory that never returns from a read after a while, and whose words are destroyed when the program ends: the threads that are stuck in
them must not see that, so that it isn't told.
*/
#include "tmwatch_bench.hpp"
#include <atomic>
#include <cstdio>
#include <memory>
#include <vector>

namespace {

struct Words {
    std::vector<std::unique_ptr<std::atomic<uint64_t>>> words;
    std::atomic<int> reads{0};
    struct Tx {};

    Words()
    {
        for (int reg = 0; reg < 8; reg++)
            words.push_back(std::make_unique<std::atomic<uint64_t>>(0));
    }
    ~Words()
    {
        std::fputs("destroyed\n", stderr);
        for (auto &word : words)
            word.reset();
    }

    bool begin(Tx &) { return true; }
    bool read(Tx &, unsigned reg, uint64_t &value)
    {
        do
            value = *words[reg];
        while (++reads > 3000);
        return true;
    }
    bool write(Tx &, unsigned, uint64_t) { return false; }
    bool commit(Tx &) { return true; }
    void abort(Tx &) {}
};

Words memory;

} // namespace

int main(int count, char **words)
{
    return tmwatch_bench_main(memory, count, words);
}
