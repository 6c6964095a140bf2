// Times of plan, LEMON and Boost.Graph on one list: interleaved, the least of many repetitions.
#pragma once
#include "peers.hpp"
#include "tarziloen.h"
#include <chrono>
#include <cstdio>
#include <cstdlib>

using Clock = std::chrono::steady_clock;

constexpr int colours = 128;

struct Times {
    double plan = 1e99, lemon = 1e99, boost = 1e99;
};

// Milliseconds for one run; the size of the matching goes to `size`.
template <class Work> double milliseconds(const Work& work, int& size) {
    auto start = Clock::now();
    size = work();
    return std::chrono::duration<double, std::milli>(Clock::now() - start).count();
}

inline int plan_match(const Ends& ends) {
    static uint16_t table[512];
    uint16_t values[5];
    uint16_t number = tarziloen_plan(nodes, colours, ends.data(), ends.size(), table, 512, values, 5);
    if (number != 0) {
        std::printf("plan refused a list: %d\n", number);
        std::exit(1);
    }
    return values[1];
}

// At least 5 rounds, then more until they have taken `budget` milliseconds.
inline Times measure(const Ends& ends, double budget, bool with_boost = true) {
    Times least;
    double spent = 0;
    for (int round = 0; round < 400 && (round < 5 || spent < budget); round++) {
        int plan, lemon, boost;
        double a = milliseconds([&] { return plan_match(ends); }, plan);
        double b = milliseconds([&] { return lemon_match(ends); }, lemon);
        double c = with_boost ? milliseconds([&] { return boost_match(ends); }, boost) : 0;
        if (plan != lemon || (with_boost && plan != boost)) {
            std::printf("the sizes of the matchings differ: plan %d, LEMON %d\n", plan, lemon);
            std::exit(1);
        }
        least.plan = std::min(least.plan, a);
        least.lemon = std::min(least.lemon, b);
        least.boost = std::min(least.boost, c);
        spent += a + b + c;
    }
    return least;
}
