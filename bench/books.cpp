// Times the calls on a stored book, and the check of a plan, against the same done in plain C++: the stored form decoded with its
// checks, the records in a vector, and the form encoded again. A preview is timed against the same grants, made one after another, and
// load and store of the stored form against those of the old form, which has no states and crews.
#include "lists.hpp"
#include "tarziloen.h"
#include <chrono>
#include <cstdio>
#include <cstdlib>
#include <cstring>

using Clock = std::chrono::steady_clock;
using Bytes = std::vector<uint8_t>;

struct Circuit {
    uint16_t serial, a, b, fate, crew, state;
};

struct Book {
    uint16_t n, w, grants;
    std::vector<Circuit> records;
};

static uint16_t get(const uint8_t* p) { return uint16_t(p[0] | p[1] << 8); }
static void put(uint8_t* p, unsigned value) {
    p[0] = uint8_t(value);
    p[1] = uint8_t(value >> 8);
}

static unsigned check_of(const uint8_t* block) {
    unsigned sum = 0;
    for (unsigned i = 0; i < 510; i++) sum = (sum + block[i] * (i + 1)) % 65521;
    return sum;
}

static Book decode(const Bytes& bytes) {
    for (size_t k = 0; k * 512 < bytes.size(); k++) {
        const uint8_t* block = &bytes[k * 512];
        if (get(block + 508) != k || get(block + 510) != check_of(block)) std::exit(1);
    }
    Book book{get(&bytes[0]), get(&bytes[2]), get(&bytes[4]), {}};
    unsigned count = get(&bytes[6]);
    for (unsigned i = 0; i < count; i++) {
        const uint8_t* p = &bytes[512 * (1 + i / 42) + 12 * (i % 42)];
        book.records.push_back({get(p), get(p + 2), get(p + 4), get(p + 6), get(p + 8), get(p + 10)});
    }
    return book;
}

static Bytes encode(const Book& book) {
    Bytes bytes(512 * (1 + (book.records.size() + 41) / 42));
    put(&bytes[0], book.n);
    put(&bytes[2], book.w);
    put(&bytes[4], book.grants);
    put(&bytes[6], unsigned(book.records.size()));
    put(&bytes[8], 2);
    for (size_t i = 0; i < book.records.size(); i++) {
        uint8_t* p = &bytes[512 * (1 + i / 42) + 12 * (i % 42)];
        const Circuit& c = book.records[i];
        put(p, c.serial);
        put(p + 2, c.a);
        put(p + 4, c.b);
        put(p + 6, c.fate);
        put(p + 8, c.crew);
        put(p + 10, c.state);
    }
    for (size_t k = 0; k * 512 < bytes.size(); k++) {
        put(&bytes[k * 512 + 508], unsigned(k));
        put(&bytes[k * 512 + 510], check_of(&bytes[k * 512]));
    }
    return bytes;
}

static bool uses(unsigned fate, unsigned a, unsigned b, unsigned link) {
    bool inside = a <= link && link < b;
    return fate % 2 == 1 ? inside : !inside;
}

// Two ways share a link if both use one of those at which one of them begins.
static bool share(unsigned n, const Circuit& c, const Circuit& d) {
    for (unsigned link : {unsigned(c.a), unsigned(c.b % n), unsigned(d.a), unsigned(d.b % n)})
        if (uses(c.fate, c.a, c.b, link) && uses(d.fate, d.a, d.b, link)) return true;
    return false;
}

static int holder(const Book& book, unsigned link, unsigned colour) {
    for (const Circuit& c : book.records)
        if (unsigned(c.fate - 1) / 2 == colour && uses(c.fate, c.a, c.b, link)) return c.serial;
    return 0;
}

static int served(unsigned n, unsigned w, const Ends& ends, const uint16_t* table) {
    size_t m = ends.size() / 2;
    int count = 0;
    std::vector<Circuit> all(m);
    for (size_t i = 0; i < m; i++) {
        uint16_t x = ends[2 * i], y = ends[2 * i + 1];
        if (table[i] > 2 * w) return -1;
        all[i] = {0, std::min(x, y), std::max(x, y), table[i], 0, 0};
        count += table[i] != 0;
    }
    for (size_t i = 0; i < m; i++)
        for (size_t j = i + 1; j < m; j++)
            if (all[i].fate && all[j].fate && (all[i].fate - 1) / 2 == (all[j].fate - 1) / 2 && share(n, all[i], all[j])) return -1;
    return count;
}

// The cents for so many metres, rounded up.
static uint64_t cents(uint64_t metres, const uint32_t* rates) {
    uint64_t first = std::min<uint64_t>(metres, 50000), second = std::min<uint64_t>(metres, 200000) - first;
    return (rates[0] * first + rates[1] * second + rates[2] * (metres - first - second) + 999) / 1000;
}

// What an order pays, by the lengths of its links.
static uint64_t charge(const Book& book, unsigned serial, const uint32_t* lengths, const uint32_t* rates) {
    uint64_t metres = 0;
    for (const Circuit& c : book.records)
        if (c.serial == serial && c.state == 0)
            for (unsigned link = 0; link < book.n; link++)
                if (uses(c.fate, c.a, c.b, link)) metres += lengths[link];
    return cents(metres, rates);
}

// What all live orders pay, by the metres up to each node.
static uint64_t charge_all(const Book& book, const uint32_t* lengths, const uint32_t* rates) {
    std::vector<uint64_t> up_to(book.n + 1u);
    for (unsigned link = 0; link < book.n; link++) up_to[link + 1] = up_to[link] + lengths[link];
    uint64_t paid = 0;
    for (const Circuit& c : book.records) {
        uint64_t plain = up_to[c.b] - up_to[c.a];
        if (c.state == 0) paid += cents(c.fate % 2 == 1 ? plain : up_to[book.n] - plain, rates);
    }
    return paid;
}

// The least time of many runs, in microseconds.
template <class Work> static double microseconds(const Work& work) {
    double least = 1e99;
    for (int round = 0; round < 300; round++) {
        auto start = Clock::now();
        work();
        least = std::min(least, std::chrono::duration<double, std::micro>(Clock::now() - start).count());
    }
    return least;
}

static void line(const char* name, size_t circuits, double ours, double plain) {
    std::printf("%-24s %8zu %10.2f %10.2f %7.2f\n", name, circuits, ours, plain, ours / plain);
}

// A book with so many live circuits of the desk, each on links of its own colour.
static Bytes book_of(size_t circuits) {
    Bytes buffer(TARZILOEN_BOOK_BYTES);
    uint16_t values[4];
    if (tarziloen_book_open(256, 128, buffer.data(), buffer.size(), values, 4) != 0) std::exit(1);
    size_t length = values[0];
    for (size_t i = 0; i < circuits; i++) {
        uint16_t a = uint16_t(i / 128 * 64);
        if (tarziloen_book_grant(buffer.data(), buffer.size(), length, a, a + 40, 0, uint16_t(i % 128), 0, values, 4) != 0) std::exit(1);
        length = values[1];
    }
    buffer.resize(length);
    return buffer;
}

// A change of a stored book, which is copied to a buffer first.
template <class Call> static double change(const Bytes& stored, const Call& call) {
    Bytes buffer(TARZILOEN_BOOK_BYTES);
    return microseconds([&] {
        std::memcpy(buffer.data(), stored.data(), stored.size());
        if (call(buffer.data(), buffer.size(), stored.size()) != 0) std::exit(1);
    });
}

// The same change by the peer: `act` is done to the decoded book.
template <class Act> static double peer_change(const Bytes& stored, const Act& act) {
    Bytes buffer(TARZILOEN_BOOK_BYTES);
    return microseconds([&] {
        Book book = decode(stored);
        act(book);
        Bytes bytes = encode(book);
        std::memcpy(buffer.data(), bytes.data(), bytes.size());
    });
}

static void time_questions(size_t circuits) {
    const Bytes stored = book_of(circuits);
    uint16_t values[4];
    uint16_t some = circuits == 0 ? 0 : uint16_t(circuits / 2 + 1);
    line("load and show", circuits,
         microseconds([&] { tarziloen_book_show(stored.data(), stored.size(), some, 0, values, 4); }),
         microseconds([&] {
             Book book = decode(stored);
             for (const Circuit& c : book.records)
                 if (c.serial == some) values[0] = c.a;
         }));
    line("load and holder", circuits,
         microseconds([&] { tarziloen_book_holder(stored.data(), stored.size(), 250, 5, 0, values, 4); }),
         microseconds([&] { values[0] = uint16_t(holder(decode(stored), 250, 5)); }));
}

static void time_charges(size_t circuits) {
    const Bytes stored = book_of(circuits);
    std::vector<uint32_t> lengths(256);
    for (unsigned link = 0; link < 256; link++) lengths[link] = 1 + link * 3917 % 60000;
    const uint32_t rates[3] = {30, 20, 10};
    uint16_t some = uint16_t(circuits / 2 + 1);
    uint64_t ours = 0, plain = 0;
    line("load and charge", circuits,
         microseconds([&] { tarziloen_book_charge(stored.data(), stored.size(), some, lengths.data(), 256, rates, 3, &ours); }),
         microseconds([&] { plain = charge(decode(stored), some, lengths.data(), rates); }));
    if (ours != plain) std::exit(1);
    line("load and charge all", circuits,
         microseconds([&] { tarziloen_book_charge_all(stored.data(), stored.size(), lengths.data(), 256, rates, 3, &ours); }),
         microseconds([&] { plain = charge_all(decode(stored), lengths.data(), rates); }));
    if (ours != plain) std::exit(1);
}

static void time_grant(size_t circuits) {
    uint16_t values[4];
    const Bytes stored = book_of(circuits);
    line("load, grant and store", circuits,
         change(stored, [&](uint8_t* buffer, size_t room, size_t length) {
             return tarziloen_book_grant(buffer, room, length, 250, 255, 0, 127, 7, values, 4);
         }),
         peer_change(stored, [&](Book& book) {
             Circuit next{uint16_t(book.grants + 1), 250, 255, 1 + 2 * 127, 7, 0};
             for (const Circuit& c : book.records)
                 if ((c.fate - 1) / 2 == 127 && share(256, c, next)) std::exit(1);
             book.records.push_back(next);
             book.grants++;
         }));
}

static void time_removal(size_t circuits) {
    uint16_t values[4], some = uint16_t(circuits / 2 + 1);
    Bytes stored = book_of(circuits);
    line("load, remove and store", circuits,
         change(stored, [&](uint8_t* buffer, size_t room, size_t length) {
             return tarziloen_book_remove(buffer, room, length, some, values, 4);
         }),
         peer_change(stored, [&](Book& book) {
             for (Circuit& c : book.records)
                 if (c.serial == some) c.state = 1;
         }));
    if (tarziloen_book_remove(stored.data(), stored.size(), stored.size(), some, values, 4) != 0) std::exit(1);
    line("load, confirm and store", circuits,
         change(stored, [&](uint8_t* buffer, size_t room, size_t length) {
             return tarziloen_book_confirm(buffer, room, length, some, values, 4);
         }),
         peer_change(stored, [&](Book& book) {
             for (size_t i = 0; i < book.records.size(); i++)
                 if (book.records[i].serial == some) book.records.erase(book.records.begin() + long(i));
         }));
}

// A conversion loads the one form and stores the other; into a buffer without room it loads alone, and is refused by 17. So the time of a
// store is that of a conversion less that of its load.
static void time_forms(size_t circuits) {
    const Bytes stored = book_of(circuits);
    Bytes old(TARZILOEN_OLD_BOOK_BYTES), buffer(TARZILOEN_BOOK_BYTES);
    uint16_t values[1];
    auto there = [&](size_t room) { return tarziloen_book_convert(old.data(), old.size(), buffer.data(), room, values, 1); };
    auto back = [&](size_t room) { return tarziloen_book_convert_back(stored.data(), stored.size(), buffer.data(), room, values, 1); };
    if (back(buffer.size()) != 0) std::exit(1);
    old.assign(buffer.data(), buffer.data() + values[0]);
    if (there(buffer.size()) != 0 || Bytes(buffer.data(), buffer.data() + values[0]) != stored) std::exit(1);
    double load = 1e99, old_load = 1e99, to_old = 1e99, from_old = 1e99;
    for (int round = 0; round < 10; round++) {
        old_load = std::min(old_load, microseconds([&] { if (there(0) != 17) std::exit(1); }));
        from_old = std::min(from_old, microseconds([&] { if (there(buffer.size()) != 0) std::exit(1); }));
        load = std::min(load, microseconds([&] { if (back(0) != 17) std::exit(1); }));
        to_old = std::min(to_old, microseconds([&] { if (back(buffer.size()) != 0) std::exit(1); }));
    }
    double store = from_old - old_load, old_store = to_old - load;
    line("load", circuits, load, old_load);
    line("store", circuits, store, old_store);
    line("load and store", circuits, load + store, old_load + old_store);
}

static void time_preview(size_t circuits) {
    const Bytes stored = book_of(circuits);
    uint16_t values[19], lines[80];
    for (uint16_t i = 0; i < 16; i++) {
        const uint16_t asked[5] = {250, 255, 0, i, 0};
        std::memcpy(lines + 5 * i, asked, sizeof asked);
    }
    Bytes buffer(TARZILOEN_BOOK_BYTES);
    double grants = microseconds([&] {
        size_t length = stored.size();
        std::memcpy(buffer.data(), stored.data(), length);
        for (uint16_t i = 0; i < 16; i++) {
            if (tarziloen_book_grant(buffer.data(), buffer.size(), length, 250, 255, 0, i, 0, values, 2) != 0) std::exit(1);
            length = values[1];
        }
    });
    double preview = microseconds([&] { tarziloen_book_preview(stored.data(), stored.size(), lines, 80, values, 19); });
    if (values[0] != 16 || values[1] != 65535 || values[18] != circuits + 16) std::exit(1);
    line("preview of 16 lines", circuits, preview, grants);
}

static void time_check(int m) {
    Random random{uint64_t(m)};
    Ends ends = random_chords(m, random);
    std::vector<uint16_t> table(512);
    uint16_t values[5];
    if (tarziloen_plan(256, 128, ends.data(), ends.size(), table.data(), table.size(), values, 5) != 0) std::exit(1);
    if (tarziloen_check(256, 128, ends.data(), ends.size(), table.data(), table.size(), values, 1) != 0) std::exit(1);
    if (served(256, 128, ends, table.data()) != values[0]) std::exit(1);
    line("check of a plan", size_t(m),
         microseconds([&] { tarziloen_check(256, 128, ends.data(), ends.size(), table.data(), table.size(), values, 1); }),
         microseconds([&] { values[0] = uint16_t(served(256, 128, ends, table.data())); }));
}

int main() {
    std::printf("%-24s %8s %10s %10s %7s\n", "call", "circuits", "ours us", "C++ us", "ratio");
    for (size_t circuits : {size_t(0), size_t(256), size_t(511)}) {
        time_questions(circuits);
        if (circuits > 0) time_charges(circuits);
        time_grant(circuits);
        if (circuits > 0) time_removal(circuits);
    }
    for (int m : {64, 128, 256, 512}) time_check(m);
    std::printf("%-24s %8s %10s %10s %7s\n", "call", "circuits", "ours us", "grants us", "ratio");
    for (size_t circuits : {size_t(0), size_t(256), size_t(496)}) time_preview(circuits);
    std::printf("%-24s %8s %10s %10s %7s\n", "form", "circuits", "new us", "old us", "ratio");
    for (size_t circuits : {size_t(0), size_t(1), size_t(64), size_t(256), size_t(512)}) time_forms(circuits);
}
