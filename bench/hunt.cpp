// Hunts for lists on which plan is slow against LEMON: from the worst of many lists of every kind, by changes of single chords that make the ratio worse.
// Writes the list of each length to bench/hunted/.
#include "measure.hpp"
#include <fstream>

static double ratio(const Ends& ends, double budget) {
    Times t = measure(ends, budget, false);
    return t.plan / t.lemon;
}

// A list of some kind, by chance.
static Ends any(int m, Random& random) {
    Ends ends;
    switch (random.below(4)) {
    case 0: ends = bundles(m, 1 + random.below(9)); break;
    case 1: ends = mixed(m, 1 + random.below(9), random); break;
    case 2: ends = near_diameters(m, random.below(24), random); break;
    default: {
        // Part of the one kind, part of the other.
        int part = random.below(m + 1);
        ends = bundles(part, 1 + random.below(5));
        Ends rest = near_diameters(m - part, 1 + random.below(8), random);
        ends.insert(ends.end(), rest.begin(), rest.end());
    }
    }
    if (random.below(2)) shuffle(ends, random);
    return ends;
}

// Some chords moved a little, or drawn anew.
static Ends changed(Ends ends, Random& random) {
    int m = int(ends.size()) / 2;
    for (int count = 1 + random.below(4); count > 0; count--) {
        int i = random.below(m);
        Ends one;
        if (random.below(4) == 0) add(one, random.below(nodes), random.below(nodes));
        else add(one, ends[2 * i] + random.below(5) - 2, ends[2 * i + 1] + random.below(5) - 2);
        ends[2 * i] = one[0];
        ends[2 * i + 1] = one[1];
    }
    return ends;
}

int main(int count, char** arguments) {
    double seconds = count > 1 ? std::atof(arguments[1]) : 60;
    for (int m : {64, 128, 256, 512}) {
        Random random{uint64_t(m)};
        auto start = Clock::now();
        auto spent = [&] { return std::chrono::duration<double>(Clock::now() - start).count(); };
        Ends worst = any(m, random);
        double worst_ratio = ratio(worst, 2);
        while (spent() < seconds) {
            Ends next = spent() < seconds / 2 ? any(m, random) : changed(worst, random);
            // A second, longer look keeps out what was slow by chance.
            if (ratio(next, 1) > worst_ratio && ratio(next, 20) > worst_ratio) {
                worst = next;
                worst_ratio = ratio(next, 20);
            }
        }
        std::ofstream file("bench/hunted/" + std::to_string(m) + ".txt");
        for (size_t i = 0; i < worst.size(); i += 2) file << worst[i] << " " << worst[i + 1] << "\n";
        std::printf("%d requests: worst ratio to LEMON %.2f\n", m, worst_ratio);
        std::fflush(stdout);
    }
}
