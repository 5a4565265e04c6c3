// Each call of toastlagoon.hpp once: what is refused by name, what is stored and taken back, and what the types keep apart.
#include <cstdlib>
#include <iostream>

#include "toastlagoon.hpp"

namespace tl = toastlagoon;

static void check(bool holds, const char *what) {
    if (holds) return;
    std::cerr << "not so: " << what << '\n';
    std::exit(1);
}
#define CHECK(...) check((__VA_ARGS__), #__VA_ARGS__)

static tl::Record record(std::int32_t lat, std::span<const std::uint8_t> models = {}) {
    static const std::uint8_t message[TL_SHORT_MESSAGE] = {0x8d};
    static const std::uint64_t tags[] = {1, 2};
    return *tl::Record::of({.time = 1000, .lat = lat, .height = 1500, .message = message, .tags = tags, .used = 3, .models = models,
                            .spec = 3, .covariance = {100, 0, 0, 100, 0, 100}});
}

static void records() {
    CHECK(tl::Record::of({}).refusal() == tl::Refusal::malformed_record);
    const tl::Record good = record(-1);
    CHECK(*tl::Record::from_bytes(good.bytes()) == good);
    CHECK(!tl::Record::from_bytes(std::array<std::uint8_t, TL_RECORD_SIZE>{}));
    CHECK(*good.identity(tl::Hash{}) != *good.identity(tl::Hash{1}));
    CHECK(tl::Record::fault(good.bytes()) == TL_FAULT_NONE);
    CHECK(tl::Record::fault({}) == TL_FAULT_LENGTH);
    CHECK(tl::Record::from_bytes(good.bytes().first(287)).refusal() == tl::Refusal::malformed_record);
    CHECK(tl::blake2s256({})[0] == 0x69);
}

// What a record says is what it was made of.
static void fields() {
    const std::uint8_t message[TL_SHORT_MESSAGE] = {0x8d, 1}, cited[] = {5, 5};
    const std::uint64_t tags[] = {7, 1ull << 63};
    const tl::Covariance covariance = {1, 2, 3, 4, 5, -0.5};
    const auto made = tl::Record::of({.time = 1ull << 63, .lat = -1, .lon = -5, .message = message, .tags = tags, .used = 2,
                                      .models = cited, .spec = 0xfffe, .covariance = covariance});
    CHECK(made->time() == 1ull << 63 && made->lat() == -1 && made->lon() == -5 && !made->height());
    CHECK(std::ranges::equal(made->message(), message) && made->tags() == std::vector(std::begin(tags), std::end(tags)));
    CHECK(made->used() == 2 && std::ranges::equal(made->models(), cited) && made->spec() == 0xfffe && made->covariance() == covariance);
    CHECK(record(0).height() == 1500);
}

static void measures() {
    const auto claim = [](std::int32_t lat, double variance) { return tl::Claim{lat, 0, 1500, tl::diagonal(variance)}; };
    CHECK(tl::agreement(claim(0, 100), claim(2700, 100)).outcome == tl::Outcome::inside);
    CHECK(*tl::agreement(claim(0, 100), claim(5400, 100)).chi_square > *tl::agreement(claim(0, 100), claim(5400, 100)).limit);
    const tl::Agreement none = tl::agreement(claim(0, 0), claim(0, 100));
    CHECK(none.outcome == tl::Outcome::unmeasurable && !none.chi_square && !none.limit);
    CHECK(tl::root(9) == 3 && tl::horizontal_sigma(tl::diagonal(0)) == 0 && tl::version() == TL_VERSION);
}

static void decisions() {
    const auto fix = [](std::size_t receivers, std::int32_t lat) {
        static const std::uint8_t message[TL_SHORT_MESSAGE] = {0x8d};
        static const std::uint64_t tags[] = {1, 2, 3};
        const auto made = tl::Record::of({.time = 1000, .lat = lat, .height = 1500, .message = message, .tags = std::span(tags).first(receivers),
                                          .used = (1u << receivers) - 1, .covariance = tl::diagonal(100)});
        return tl::Item{*made, {}, *made->identity({})};
    };
    const std::vector<tl::Item> items = {fix(1, 0), fix(2, 2700), fix(3, 5400)};
    const auto decision = tl::decide(items);
    CHECK(decision->ranked == std::vector<std::uint8_t>{1} && decision->dominated == std::vector<std::uint8_t>{0});
    CHECK(decision->refused.size() == 1 && decision->refused[0].index == 2 && decision->refused[0].against == 0);
    CHECK(!decision->refused[0].superseded && *decision->refused[0].chi_square > 16.266);
    CHECK(tl::decide_any(items)->ranked == decision->ranked);
    CHECK(tl::decide({})->ranked.empty());
    CHECK(tl::decide(std::vector<tl::Item>{items[0], items[0]}).refusal() == tl::Refusal::bad_items);
}

static void registers() {
    static tl::Register north, south;
    CHECK(!north.report(4, record(2700)));
    CHECK(!north.report(7, record(2700)));
    CHECK(north.report(32, record(2700)) == tl::Refusal::engine_over_31);
    CHECK(north.convict(tl::Desk::analyst, 4) == tl::Refusal::no_right);
    CHECK(north.preview(tl::Desk::crew, 4).refusal() == tl::Refusal::no_right);
    const auto fixes = north.fixes();
    CHECK(fixes->size() == 1 && (*fixes)[0].role == tl::Role::ranked && (*fixes)[0].signers == 0x90);
    CHECK(!(*fixes)[0].against && !(*fixes)[0].chi_square && (*fixes)[0].transmission == 1 && (*fixes)[0].place == 0);
    const auto previewed = north.preview(tl::Desk::analyst, 4);
    CHECK(!north.convict(tl::Desk::manager, 4));
    CHECK(north.board(tl::Desk::manager)->view() == previewed->view());
    CHECK(north.board(tl::Desk::crew)->view() ==
          "transmission=1\nrole=ranked time=1000 lat=2700 lon=0 height=2 weight=2 signers=00000080\n");
    CHECK(south.board(tl::Desk::crew)->view().empty());
    CHECK(north.map()->view().find("[0.0000000,0.0002700,1.500]") != std::string_view::npos);
    CHECK(*tl::Register::from_bytes(north.bytes()) == north);
    std::array<std::uint8_t, TL_REGISTER_SIZE> none;
    none.fill(1);
    CHECK(tl::Register::from_bytes(none).refusal() == tl::Refusal::malformed);
    for (const std::size_t length : {std::size_t{0}, std::size_t{5}, std::size_t{TL_REGISTER_SIZE} - 1})
        CHECK(tl::Register::from_bytes(std::span(none).first(length)).refusal() == tl::Refusal::bad_length);
    CHECK(north.convicted() == 1u << 4 && north.records() == std::vector<tl::Held>{{record(2700), 1u << 7}});
    CHECK(!north.summary(7, 5, 3, tl::Hash{9}) && north.summaries() == std::vector<tl::Summary>{{7, 5, 3, tl::Hash{9}}});
    CHECK(*tl::Register::from_columns(north.to_columns()) == north);
    CHECK(tl::Register::from_columns({}).refusal() == tl::Refusal::bad_length);
    const auto lacked = south.lacks(north);
    CHECK(!south.join(*lacked));
    CHECK(!south.join(south));
    CHECK(south == north);
    CHECK(*south.lacks(north) == tl::Register{});
}

static void sessions() {
    static tl::Register window;
    CHECK(window.perform("op=convict\nengine=7\nop=convict\nengine=32\n")->at(1) == TL_ENGINE_OVER_31);
    CHECK(window.report(7, record(0)) == tl::Refusal::engine_convicted);
    CHECK(window.perform("")->empty());
    CHECK(window.perform("op=convict\nengine=7").refusal() == tl::Refusal::bad_line);
    CHECK(window.perform(std::string(TL_MAX_SESSION + 1, ' ')).refusal() == tl::Refusal::session_too_long);
    CHECK(tl::session_reason("").empty());
    CHECK(tl::session_reason("\n") == "line 1: op= is due, then summary, convict or report, then a line feed; found ''\n");
}

static void models() {
    static tl::Register window;
    const std::uint8_t cited[] = {5};
    CHECK(window.inputs(record(0, cited)).refusal() == tl::Refusal::model_missing);
    CHECK(window.summary(1, 64, 3, {}) == tl::Refusal::bad_summary);
    CHECK(!window.summary(1, 5, 3, {}));
    CHECK(bool(window.inputs(record(0, cited))));
    CHECK(!window.summary(2, 5, 3, {1}));
    CHECK(window.inputs(record(0, cited)).refusal() == tl::Refusal::model_disputed);
}

static void tracks() {
    static tl::Track track;
    const std::uint8_t cited[] = {5};
    CHECK(*track.report(1, record(0, cited)) == tl::Effect::waiting);
    CHECK(*tl::Track::from_bytes(track.bytes(), track.shelf()) == track);
    CHECK(tl::Track::from_bytes({}, {}).refusal() == tl::Refusal::malformed);
    CHECK(track.waiting() == std::vector<tl::Waiting>{{5, 1, record(0, cited)}});
    CHECK(!track.summary(2, 5, 3, {}));
    CHECK(*track.report(1, record(0, cited)) == tl::Effect::duplicate);
    CHECK(track.report(32, record(0)).refusal() == tl::Refusal::engine_over_31);
    CHECK(track.listing()->view().find("signers=00000002") != std::string_view::npos);
    std::array<std::uint8_t, TL_SHELF_SIZE> none;
    none.fill(1);
    CHECK(tl::Track::from_bytes(track.bytes(), none).refusal() == tl::Refusal::malformed);
    CHECK(!track.convict(2));
    CHECK(track.convicted() == 1u << 2 && track.contested() == 0 && track.waiting().empty());
    CHECK(tl::words(*track.convict(32)) == std::string_view("engine over 31"));
}

int main() {
    records();
    fields();
    measures();
    decisions();
    registers();
    sessions();
    models();
    tracks();
}
