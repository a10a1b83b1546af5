// What the fuzzers in C++ share: a generator by seed, a clock, a failure that names its seed and step.
#pragma once
#include <chrono>
#include <cinttypes>
#include <cstdint>
#include <cstdio>
#include <cstdlib>

struct Run {
    uint64_t seed, state, steps = 0;
    std::chrono::steady_clock::time_point end;

    // The words of the command line: a seed, and a number of seconds.
    Run(int count, char **words)
        : seed(count > 1 ? strtoull(words[1], nullptr, 10) : 1), state(seed),
          end(std::chrono::steady_clock::now() + std::chrono::seconds(count > 2 ? atoi(words[2]) : 1))
    {
    }

    bool goes_on() const { return std::chrono::steady_clock::now() < end; }

    // SplitMix64, by Steele, Lea and Flood, 2014.
    uint64_t number()
    {
        uint64_t z = state += 0x9e3779b97f4a7c15;
        z = (z ^ z >> 30) * 0xbf58476d1ce4e5b9;
        z = (z ^ z >> 27) * 0x94d049bb133111eb;
        return z ^ z >> 31;
    }

    uint64_t below(uint64_t limit) { return number() % limit; }

    // Mostly from a small range, so that numbers meet; now and then an end or any number.
    uint64_t key()
    {
        switch (below(24)) {
        case 0: return 0;
        case 1: return UINT64_MAX - below(3);
        case 2: return number();
        default: return below(600) << below(2) * 20;
        }
    }

    void expect(bool holds, const char *what, int line) const
    {
        if (holds)
            return;
        fprintf(stderr, "seed %" PRIu64 ", step %" PRIu64 ", line %d: not so: %s\n", seed, steps, line, what);
        abort();
    }
};

#define EXPECT(what) run.expect((what), #what, __LINE__)
