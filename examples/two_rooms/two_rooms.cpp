// Two control rooms get the reports of four engines over ten minutes, each in its own order, with copies and late ones, and cut them
// by transmit time into windows with a register each. Half way engine 7 is convicted. In the end all boards are equal.
#include <iostream>
#include <map>
#include <set>
#include "toastlagoon.hpp"
namespace tl = toastlagoon;
using u64 = std::uint64_t;
using Room = std::map<u64, tl::Register>;
enum Kind : u64 { HEARD, READING, LINK, LATE, COPY };
constexpr struct { std::uint32_t number, tags, first; } ENGINES[] = {{1, 3, 101}, {2, 4, 102}, {3, 4, 101}, {7, 5, 103}}; // the last lies
constexpr u64 SECOND = 1'000'000'000, START = 1'731'679'200 * SECOND;
constexpr std::uint8_t MODEL[] = {5};
static u64 drawn(Kind kind, u64 room, u64 t, u64 e) { // a number that depends on nothing but these
    u64 x = (((kind * 4 + room) * 65536 + t) * 64 + e + 1) * 0x9e3779b97f4a7c15;
    x = (x ^ (x >> 30)) * 0xbf58476d1ce4e5b9;
    x = (x ^ (x >> 27)) * 0x94d049bb133111eb;
    return x ^ (x >> 31);
}
static u64 time_of(u64 t, u64 e) { return START + t * SECOND / 2 + SECOND / 10 + drawn(READING, 0, t, e) % 2000; }
static void must(const tl::Change &change) { if (change) throw *change; }
static tl::Record record(u64 t, u64 e) {
    const std::uint8_t message[] = {0x8d, 0x3c, 0x6d, 0xd0, static_cast<std::uint8_t>(t), static_cast<std::uint8_t>(t >> 8), 0};
    const u64 tags[] = {ENGINES[e].first, ENGINES[e].first + 1, ENGINES[e].first + 2, ENGINES[e].first + 3, ENGINES[e].first + 4};
    const auto lat = static_cast<std::int32_t>(481370000 + 1800 * t + 100 * e + (e == 3 ? 1000000 : 0));
    return *tl::Record::of({.time = time_of(t, e), .lat = lat, .lon = 115820000, .height = 312400, .message = message,
                            .tags = {tags, ENGINES[e].tags}, .used = (1u << ENGINES[e].tags) - 1, .models = {MODEL, e == 3 ? 0u : 1u},
                            .spec = 1, .covariance = {100, 0, 0, 100, 0, 100}});
}
static void run(u64 room, const char *name, Room &windows) { // each has the summaries, and from half way on the conviction
    std::set<std::array<u64, 3>> got;
    for (u64 t = 0, e = 0; t < 1200; e = (e + 1) % 4, t += e == 0) {
        const u64 late = drawn(LATE, room, t, e), more = late % 20 == 0 ? late / 20 % (60 * SECOND) : 0;
        const u64 at = time_of(t, e) + SECOND / 20 + drawn(LINK, room, t, e) % SECOND + more;
        if (drawn(HEARD, 0, t, e) % 16 != 0) got.insert({{at, t, e}, {at + (drawn(COPY, room, t, e) % 25 == 0 ? SECOND : 0), t, e}});
    }
    u64 refused = 0, i = 0, half = got.size() / 2 + 200 * room;
    for (const auto &[at, t, e] : got) {
        tl::Register &window = windows[(time_of(t, e) - START) / (4 * SECOND)];
        for (std::uint32_t engine = 1; engine <= 3; engine++) must(window.summary(engine, MODEL[0], 1, {}));
        for (auto &[number, one] : windows)
            if (i == half || (i > half && &one == &window)) must(one.convict(tl::Desk::manager, ENGINES[3].number));
        if (window.report(ENGINES[e].number, record(t, e)) == tl::Refusal::engine_convicted) refused++;
        i++;
    }
    std::cout << name << ": " << i << " reports, " << i - refused << " answered 0 (done), " << refused << " answered "
              << static_cast<int>(tl::Refusal::engine_convicted) << " (" << tl::words(tl::Refusal::engine_convicted) << ")\n";
}
int main() {
    Room north, south;
    run(0, "north", north);
    run(1, "south", south);
    std::size_t same = 0, equal = 0;
    for (const auto &[number, window] : north) {
        same += window == south[number];
        equal += window.board(tl::Desk::manager)->view() == south[number].board(tl::Desk::manager)->view();
    }
    std::cout << north.size() << " windows, " << same << " hold the same in both rooms, "
              << (equal == south.size() ? "all boards are equal" : "boards differ") << '\n';
}
