// The lists of requests that are timed: two ends each, on a ring of 256 nodes.
#pragma once
#include <algorithm>
#include <cstdint>
#include <string>
#include <vector>

using Ends = std::vector<uint16_t>;

constexpr int nodes = 256;

// SplitMix64: the same lists on every machine.
struct Random {
    uint64_t state;
    uint64_t next() {
        uint64_t z = (state += 0x9e3779b97f4a7c15u);
        z = (z ^ (z >> 30)) * 0xbf58476d1ce4e5b9u;
        z = (z ^ (z >> 27)) * 0x94d049bb133111ebu;
        return z ^ (z >> 31);
    }
    int below(int limit) { return int(next() % uint64_t(limit)); }
};

inline void add(Ends& ends, int a, int b) {
    a = ((a % nodes) + nodes) % nodes;
    b = ((b % nodes) + nodes) % nodes;
    if (a == b) b = (b + 1) % nodes;
    ends.push_back(uint16_t(a));
    ends.push_back(uint16_t(b));
}

inline void shuffle(Ends& ends, Random& random) {
    for (int i = int(ends.size()) / 2 - 1; i > 0; i--) {
        int j = random.below(i + 1);
        std::swap(ends[2 * i], ends[2 * j]);
        std::swap(ends[2 * i + 1], ends[2 * j + 1]);
    }
}

inline Ends random_chords(int m, Random& random) {
    Ends ends;
    for (int i = 0; i < m; i++) add(ends, random.below(nodes), random.below(nodes));
    return ends;
}

// Every chord has an end at one of three hubs.
inline Ends hubs(int m, Random& random) {
    const int hub[3] = {0, 85, 170};
    Ends ends;
    for (int i = 0; i < m; i++) add(ends, hub[random.below(3)], random.below(nodes));
    return ends;
}

// Bundles of `size` parallel chords; each bundle crosses every other.
inline Ends bundles(int m, int size) {
    int count = std::max(1, (m + size - 1) / size);
    int spacing = std::max(1, nodes / 2 / count);
    Ends ends;
    for (int i = 0; i < m; i++) {
        int base = (i / size) * spacing % (nodes / 2);
        int inside = i % std::min(size, spacing);
        add(ends, base + inside, base + nodes / 2 - inside);
    }
    return ends;
}

// Half of the chords in bundles, half of them random.
inline Ends mixed(int m, int size, Random& random) {
    Ends ends = bundles(m / 2, size);
    Ends rest = random_chords(m - m / 2, random);
    ends.insert(ends.end(), rest.begin(), rest.end());
    return ends;
}

// Chords of nearly half the ring.
inline Ends near_diameters(int m, int jitter, Random& random) {
    Ends ends;
    for (int i = 0; i < m; i++) {
        int a = random.below(nodes);
        add(ends, a, a + nodes / 2 + random.below(2 * jitter + 1) - jitter);
    }
    return ends;
}
