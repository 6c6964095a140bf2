// A table of plan's time on every kind of list, against LEMON and Boost.Graph building the compatibility graph and matching it.
#include "measure.hpp"
#include <fstream>
#include <functional>

struct Kind {
    std::string name;
    std::function<Ends(int, Random&)> list;
    int seeds;
};

// A list that bench/hunt has found, from its file.
static Ends hunted(int m) {
    std::ifstream file("bench/hunted/" + std::to_string(m) + ".txt");
    Ends ends;
    for (int a, b; file >> a >> b;) add(ends, a, b);
    return ends;
}

static std::vector<Kind> kinds() {
    std::vector<Kind> all;
    all.push_back({"random chords", random_chords, 4});
    all.push_back({"three hubs", hubs, 4});
    for (int size : {1, 3, 5, 7}) {
        std::string of = "bundles of " + std::to_string(size);
        auto shuffled = [](Ends ends, Random& random) { shuffle(ends, random); return ends; };
        all.push_back({of, [=](int m, Random&) { return bundles(m, size); }, 1});
        all.push_back({of + ", shuffled", [=](int m, Random& r) { return shuffled(bundles(m, size), r); }, 4});
        all.push_back({of + " and random", [=](int m, Random& r) { return mixed(m, size, r); }, 4});
        all.push_back({of + " and random, shuffled", [=](int m, Random& r) { return shuffled(mixed(m, size, r), r); }, 4});
    }
    for (int jitter : {1, 2, 4, 8}) {
        std::string name = "near diameters, jitter " + std::to_string(jitter);
        all.push_back({name, [=](int m, Random& r) { return near_diameters(m, jitter, r); }, 6});
    }
    all.push_back({"hunted", [](int m, Random&) { return hunted(m); }, 1});
    return all;
}

int main(int count, char** arguments) {
    double budget = count > 1 ? std::atof(arguments[1]) : 30;
    double worst = 0;
    std::string where;
    std::printf("%-36s %4s %9s %9s %9s %7s %7s %8s\n", "list", "m", "plan ms", "LEMON ms", "Boost ms", "/LEMON", "/Boost", "512/64");
    for (const Kind& kind : kinds()) {
        double small = 0;
        for (int m : {64, 128, 256, 512}) {
            Times mean{0, 0, 0};
            double to_lemon = 0, to_boost = 0;
            for (int seed = 0; seed < kind.seeds; seed++) {
                Random random{uint64_t(seed) * 1000 + m};
                Times t = measure(kind.list(m, random), budget);
                mean.plan += t.plan / kind.seeds;
                mean.lemon += t.lemon / kind.seeds;
                mean.boost += t.boost / kind.seeds;
                to_lemon = std::max(to_lemon, t.plan / t.lemon);
                to_boost = std::max(to_boost, t.plan / t.boost);
            }
            if (m == 64) small = mean.plan;
            std::printf("%-36s %4d %9.4f %9.4f %9.4f %7.2f %7.2f", kind.name.c_str(), m, mean.plan, mean.lemon, mean.boost, to_lemon, to_boost);
            std::printf(m == 512 ? " %8.1f\n" : "\n", mean.plan / small);
            std::fflush(stdout);
            if (to_lemon > worst) {
                worst = to_lemon;
                where = kind.name + ", " + std::to_string(m);
            }
        }
    }
    std::printf("worst ratio to LEMON %.2f (%s)\n", worst, where.c_str());
}
