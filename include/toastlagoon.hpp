// Toastlagoon's functions for C++20, over toastlagoon.h, which says what each does and what a caller owes.
//
//     namespace tl = toastlagoon;
//     tl::Register window;                                                         // empty
//     auto record = tl::Record::of({.time = now, .lat = 481372700, .lon = 115820000, .message = message, .tags = tags, .used = 3,
//                                   .covariance = {100, 0, 0, 100, 0, 100}});
//     if (!record) return 1;
//     if (auto refused = window.report(engine, *record)) std::puts(tl::words(*refused));
//     if (auto board = window.board(tl::Desk::manager)) std::cout << board->view();
//
// Every value owns its memory and has the size that the library takes, so no pointer and no length is passed by hand; a length is told from
// a refusal; an answer that is thrown away is a warning. The library allocates nothing; what is a vector or a string here does. A Register has 37,256 bytes and a Track with its shelf
// 52,417, and a Result of one as many: keep them out of small stacks.
#ifndef TOASTLAGOON_HPP
#define TOASTLAGOON_HPP

#if __cplusplus < 202002L
#error "toastlagoon.hpp needs C++20 (-std=c++20); C and older C++ call toastlagoon.h"
#else

#include <algorithm>
#include <array>
#include <bit>
#include <cstdint>
#include <optional>
#include <span>
#include <string>
#include <string_view>
#include <type_traits>
#include <utility>
#include <variant>
#include <vector>

#include "toastlagoon.h"

namespace toastlagoon {

// Why a call was refused: no byte has changed then.
enum class Refusal : std::uint32_t {
    malformed = TL_MALFORMED_REGISTER, // register, or track with its shelf
    engine_over_31 = TL_ENGINE_OVER_31,
    malformed_record = TL_MALFORMED_RECORD,
    engine_convicted = TL_ENGINE_CONVICTED,
    full = TL_FULL,
    model_disputed = TL_MODEL_DISPUTED,
    bad_items = TL_BAD_ITEMS,
    bad_summary = TL_BAD_SUMMARY,
    bad_line = TL_BAD_LINE,
    session_too_long = TL_SESSION_TOO_LONG,
    shelf_full = TL_SHELF_FULL,
    unknown_desk = TL_UNKNOWN_DESK,
    no_right = TL_NO_RIGHT,
    bad_length = TL_BAD_LENGTH,
    model_missing = TL_WAITING, // of Register::inputs
};

inline const char *words(Refusal refusal) { return tl_answer_name(static_cast<std::uint32_t>(refusal)); }

// What a call is for, or why it was refused.
template <class T> class [[nodiscard]] Result {
    std::variant<T, Refusal> held;

  public:
    Result(T value) : held(std::move(value)) {}
    Result(Refusal refusal) : held(refusal) {}
    explicit operator bool() const { return held.index() == 0; }
    // Ask first whether there is a value: each of these throws std::bad_variant_access where it has not what it is asked for.
    const T &operator*() const { return std::get<0>(held); }
    const T *operator->() const { return &std::get<0>(held); }
    Refusal refusal() const { return std::get<1>(held); }
};

// A call that changes memory: nothing where it is done, or why it was refused.
class [[nodiscard]] Change : public std::optional<Refusal> {
  public:
    explicit Change(std::uint32_t answer) : std::optional<Refusal>(answer == TL_OK ? std::nullopt : std::optional(Refusal{answer})) {}
};

// What was written to a room of so many bytes.
template <std::size_t Size> class Text {
    std::array<std::uint8_t, Size> bytes;
    std::size_t length = 0;

    // What a call returns is a length where it is 0 or at least `least`, and a refusal else.
    template <class Call> static Result<Text> written(std::size_t least, Call call) {
        Text text;
        const std::uint32_t returned = call(text.bytes.data(), Size);
        if (returned != 0 && returned < least) return Refusal{returned};
        text.length = returned;
        return text;
    }
    friend class Register;
    friend class Track;

  public:
    std::string_view view() const { return {reinterpret_cast<const char *>(bytes.data()), length}; }
};
using Board = Text<TL_BOARD_SIZE>;
using Map = Text<TL_MAP_SIZE>;
using Listing = Text<TL_LISTING_SIZE>;

using Hash = std::array<std::uint8_t, TL_HASH_SIZE>;

// Where a span begins; of an empty one some place that can be read, since the library takes no other.
template <class T> const T *start(std::span<const T> span) {
    static constexpr T some{};
    return span.empty() ? &some : span.data();
}

// The number of type T in some bytes, the lowest byte first.
template <class T> T number_at(const std::uint8_t *bytes) {
    std::uint64_t bits = 0;
    for (std::size_t i = 0; i < sizeof(T); i++) bits |= std::uint64_t{bytes[i]} << (8 * i);
    if constexpr (std::is_floating_point_v<T>) return std::bit_cast<T>(bits);
    else return static_cast<T>(bits);
}

inline Hash hash_at(const std::uint8_t *bytes) {
    Hash out;
    std::copy_n(bytes, out.size(), out.begin());
    return out;
}

inline std::uint32_t version() { return tl_version(); }

inline Hash blake2s256(std::span<const std::uint8_t> input) {
    Hash out;
    tl_blake2s256(start(input), input.size(), out.data());
    return out;
}

// The square root, rounded to nearest: NaN for NaN and for a negative number.
inline double root(double x) { return tl_root(x); }

// xx, xy, xz, yy, yz, zz in m^2; x is east, y north and z up.
using Covariance = std::array<double, 6>;

// The same variance on each axis, in m^2, and no other terms.
inline Covariance diagonal(double variance) { return {variance, 0, 0, variance, 0, variance}; }

// The horizontal deviation in metres: 0 where the sum of the two horizontal variances is NaN or not above zero, so a circle of 0 m says that
// nothing is known.
inline double horizontal_sigma(const Covariance &c) { return tl_horizontal_sigma(c[0], c[1], c[2], c[3], c[4], c[5]); }

// A fix, as far as an agreement looks at it: 1e-7 degree, and millimetres where the height is known.
struct Claim {
    std::int32_t lat = 0, lon = 0;
    std::optional<std::int32_t> height{};
    Covariance covariance{};
};

enum class Outcome : std::uint32_t { inside = TL_INSIDE, outside = TL_OUTSIDE, unmeasurable = TL_UNMEASURABLE };

// Whether a larger fix lies within a smaller one's uncertainty. Where it is unmeasurable there is neither number, and the two count as
// disagreeing.
struct Agreement {
    Outcome outcome;
    std::optional<double> chi_square, limit;
};

inline Agreement agreement(const Claim &smaller, const Claim &larger) {
    double chi_square = 0, limit = 0;
    const Covariance &a = smaller.covariance, &b = larger.covariance;
    const Outcome outcome{tl_agreement(smaller.lat, smaller.lon, smaller.height.has_value(), smaller.height.value_or(0), a[0], a[1], a[2],
                                       a[3], a[4], a[5], larger.lat, larger.lon, larger.height.has_value(), larger.height.value_or(0),
                                       b[0], b[1], b[2], b[3], b[4], b[5], &chi_square, &limit)};
    if (outcome == Outcome::unmeasurable) return {outcome, {}, {}};
    return {outcome, chi_square, limit};
}

// What a record says. What is not named is zero: so no height, and no models.
struct Fields {
    std::uint64_t time = 0;                     // nanoseconds
    std::int32_t lat = 0, lon = 0;              // 1e-7 degree
    std::optional<std::int32_t> height{};       // millimetres
    std::span<const std::uint8_t> message{};    // TL_SHORT_MESSAGE or TL_LONG_MESSAGE bytes
    std::span<const std::uint64_t> tags{};      // 1 to TL_MAX_TAGS, strictly ascending
    std::uint32_t used = 0;                     // bit i for the i-th tag
    std::span<const std::uint8_t> models{};     // up to TL_MAX_CITED, each at most TL_MAX_MODEL
    std::uint16_t spec = 0;
    Covariance covariance{};
};

class Record {
    std::array<std::uint8_t, TL_RECORD_SIZE> memory{};
    Record() = default;
    friend class Register;
    friend class Track;

    // The record at some place of a register or a shelf.
    static Record found(const std::uint8_t *bytes) {
        Record made;
        std::copy_n(bytes, made.memory.size(), made.memory.begin());
        return made;
    }
    template <class T> T at(std::size_t place) const { return number_at<T>(memory.data() + place); }

  public:
    static Result<Record> of(const Fields &f) {
        Record made;
        const std::uint32_t answer =
            tl_record_write(f.time, f.lat, f.lon, f.height.has_value(), f.height.value_or(0), start(f.message), f.message.size(),
                            start(f.tags), f.tags.size(), f.used, start(f.models), f.models.size(), f.spec, f.covariance.data(),
                            made.memory.data());
        if (answer != TL_OK) return Refusal{answer};
        return made;
    }
    // Of any length: what is no record is malformed_record, and fault says why.
    static Result<Record> from_bytes(std::span<const std::uint8_t> bytes) {
        if (fault(bytes) != TL_FAULT_NONE) return Refusal::malformed_record;
        return found(bytes.data());
    }
    // Why bytes are no record: TL_FAULT_NONE where they are one.
    static std::uint32_t fault(std::span<const std::uint8_t> bytes) { return tl_record_fault(start(bytes), bytes.size()); }
    std::span<const std::uint8_t, TL_RECORD_SIZE> bytes() const { return memory; }
    Result<Hash> identity(const Hash &inputs) const {
        Hash out;
        const std::uint32_t answer = tl_record_identity(memory.data(), memory.size(), inputs.data(), out.data());
        if (answer != TL_OK) return Refusal{answer};
        return out;
    }
    // What it says, as Fields has it.
    std::uint64_t time() const { return at<std::uint64_t>(TL_RECORD_TIME_AT); }
    std::int32_t lat() const { return at<std::int32_t>(TL_RECORD_LAT_AT); }
    std::int32_t lon() const { return at<std::int32_t>(TL_RECORD_LON_AT); }
    std::optional<std::int32_t> height() const {
        if (memory[TL_RECORD_HAS_HEIGHT_AT] == 0) return std::nullopt;
        return at<std::int32_t>(TL_RECORD_HEIGHT_AT);
    }
    std::span<const std::uint8_t> message() const { return std::span(memory).subspan(TL_RECORD_MESSAGE_AT, memory[TL_RECORD_MESSAGE_LENGTH_AT]); }
    std::vector<std::uint64_t> tags() const {
        std::vector<std::uint64_t> found(memory[TL_RECORD_TAG_COUNT_AT]);
        for (std::size_t i = 0; i < found.size(); i++) found[i] = at<std::uint64_t>(TL_RECORD_TAGS_AT + i * sizeof found[i]);
        return found;
    }
    std::uint32_t used() const { return at<std::uint32_t>(TL_RECORD_USED_AT); }
    std::span<const std::uint8_t> models() const { return std::span(memory).subspan(TL_RECORD_MODELS_AT, memory[TL_RECORD_MODEL_COUNT_AT]); }
    std::uint16_t spec() const { return at<std::uint16_t>(TL_RECORD_SPEC_AT); }
    Covariance covariance() const {
        Covariance found;
        for (std::size_t i = 0; i < found.size(); i++) found[i] = at<double>(TL_RECORD_XX_AT + i * TL_F64_SIZE);
        return found;
    }
    bool operator==(const Record &) const = default;
};

// A record that a register holds, and the engines that reported it: bit n for engine n.
struct Held {
    Record record;
    std::uint32_t signers;
    bool operator==(const Held &) const = default;
};

// What an engine says of a model: its spec and the hash of its inputs.
struct Summary {
    std::uint8_t engine, model;
    std::uint16_t spec;
    Hash inputs;
    bool operator==(const Summary &) const = default;
};

// Who asks: the library believes it.
enum class Desk : std::uint32_t { crew = TL_CREW, analyst = TL_ANALYST, manager = TL_MANAGER };

// What is decided of a fix in its transmission.
enum class Role : std::uint8_t { ranked = TL_RANKED, dominated = TL_DOMINATED, refused = TL_REFUSED };

// A fix of a board: one for each line of the full board.
struct Shown {
    std::uint8_t transmission;         // its number, from 1
    Role role;
    std::uint8_t place;                // of the record that represents it, in the register
    std::uint32_t signers;             // bit n for engine n
    Hash identity;
    std::optional<std::uint8_t> against;  // by its index on the board
    std::optional<double> chi_square;
};

// The bytes of a text, as the library takes them.
inline std::span<const std::uint8_t> bytes_of(std::string_view text) {
    return {reinterpret_cast<const std::uint8_t *>(text.data()), text.size()};
}

// Why a session is refused, in a sentence that ends with a line feed; no byte where it is not refused.
inline std::string session_reason(std::string_view session) {
    std::array<std::uint8_t, TL_REASON_SIZE> out;
    const std::uint32_t length = tl_session_reason(start(bytes_of(session)), session.size(), out.data());
    return {out.begin(), out.begin() + length};
}

// Every report of one aircraft and one window of time. Two are equal where all of their bytes are.
class Register {
    std::array<std::uint8_t, TL_REGISTER_SIZE> memory{};

  public:
    // A stored register: bad_length where it has another length, malformed where it is none.
    static Result<Register> from_bytes(std::span<const std::uint8_t> bytes) {
        if (bytes.size() != TL_REGISTER_SIZE) return Refusal::bad_length;
        Register made;
        std::uint8_t none;
        std::copy(bytes.begin(), bytes.end(), made.memory.begin());
        // Shown no room for a board, the library says so only of a register that is well-formed.
        const std::uint32_t answer = tl_board(TL_MANAGER, made.memory.data(), made.memory.size(), &none, 0);
        if (answer != TL_OUTPUT_TOO_SMALL) return Refusal{answer};
        return made;
    }
    std::span<const std::uint8_t, TL_REGISTER_SIZE> bytes() const { return memory; }

    Change report(std::uint32_t engine, const Record &record) {
        return Change(tl_register_report(memory.data(), memory.size(), engine, record.memory.data(), record.memory.size()));
    }
    Change summary(std::uint32_t engine, std::uint32_t model, std::uint16_t spec, const Hash &inputs) {
        return Change(tl_register_summary(memory.data(), memory.size(), engine, model, spec, inputs.data(), inputs.size()));
    }
    Change convict(Desk desk, std::uint32_t engine) {
        return Change(tl_register_conviction(static_cast<std::uint32_t>(desk), memory.data(), memory.size(), engine));
    }
    // A register joined to itself is as it was, and the library takes no memory twice.
    Change join(const Register &other) {
        return Change(this == &other ? TL_OK : tl_register_join(memory.data(), memory.size(), other.memory.data(), other.memory.size()));
    }
    Result<Register> lacks(const Register &other) const {
        Register out;
        const std::uint32_t answer = tl_register_lacks(memory.data(), memory.size(), other.memory.data(), other.memory.size(),
                                                       out.memory.data(), out.memory.size());
        if (answer != TL_OK) return Refusal{answer};
        return out;
    }
    Result<Hash> inputs(const Record &record) const {
        Hash out;
        const std::uint32_t answer =
            tl_register_inputs(memory.data(), memory.size(), record.memory.data(), record.memory.size(), out.data());
        if (answer != TL_OK) return Refusal{answer};
        return out;
    }
    // Performs the operations of a session, as a manager: the answer of each, TL_OK or why the register refused it. session_reason says why a
    // session is refused.
    Result<std::vector<std::uint32_t>> perform(std::string_view session) {
        std::vector<std::uint8_t> out(TL_SESSION_SIZE);
        const std::uint32_t length = tl_register_session(memory.data(), memory.size(), start(bytes_of(session)), session.size(), out.data(),
                                                         out.size());
        if (length % TL_ANSWER_LINE_SIZE != 0) return Refusal{length};
        std::vector<std::uint32_t> answers;
        // The digit of a line stands before its line feed.
        for (std::size_t at = 0; at < length; at += TL_ANSWER_LINE_SIZE) answers.push_back(std::uint32_t{out[at + TL_ANSWER_LINE_SIZE - 2]} - '0');
        return answers;
    }
    Result<Board> board(Desk desk) const {
        return Board::written(TL_MIN_CREW_LENGTH, [&](std::uint8_t *out, std::size_t size) {
            return tl_board(static_cast<std::uint32_t>(desk), memory.data(), memory.size(), out, size);
        });
    }
    Result<Board> preview(Desk desk, std::uint32_t engine) const {
        return Board::written(TL_MIN_LENGTH, [&](std::uint8_t *out, std::size_t size) {
            return tl_register_preview(static_cast<std::uint32_t>(desk), memory.data(), memory.size(), engine, out, size);
        });
    }
    Result<Map> map() const {
        return Map::written(TL_MIN_MAP_LENGTH, [&](std::uint8_t *out, std::size_t size) {
            return tl_register_map(memory.data(), memory.size(), out, size);
        });
    }
    // One for each line of the full board, in the order of the lines.
    Result<std::vector<Shown>> fixes() const {
        std::array<std::uint8_t, TL_FIXES_SIZE> out;
        const std::uint32_t length = tl_register_fixes(memory.data(), memory.size(), out.data(), out.size());
        if (length != 0 && length < TL_SHOWN_SIZE) return Refusal{length};
        std::vector<Shown> shown;
        for (std::size_t at = 0; at < length; at += TL_SHOWN_SIZE) {
            const std::uint8_t *one = out.data() + at;
            Shown fix{one[TL_SHOWN_NUMBER_AT], static_cast<Role>(one[TL_SHOWN_ROLE_AT]), one[TL_SHOWN_PLACE_AT],
                      number_at<std::uint32_t>(one + TL_SHOWN_SIGNERS_AT), hash_at(one + TL_SHOWN_IDENTITY_AT), {}, {}};
            if (fix.role == Role::refused) fix.against = one[TL_SHOWN_AGAINST_AT];
            if (one[TL_SHOWN_MEASURED_AT] != 0) fix.chi_square = number_at<double>(one + TL_SHOWN_CHI2_AT);
            shown.push_back(fix);
        }
        return shown;
    }
    // The convicted engines: bit n for engine n.
    std::uint32_t convicted() const { return number_at<std::uint32_t>(memory.data() + TL_REGISTER_CONVICTED_AT); }
    // The records and the summaries that it holds now, in byte order.
    std::vector<Held> records() const {
        std::vector<Held> found;
        const std::uint8_t *place = memory.data() + TL_REGISTER_RECORDS_AT;
        for (int left = number_at<std::uint16_t>(memory.data() + TL_REGISTER_RECORD_COUNT_AT); left-- > 0; place += TL_HELD_SIZE)
            found.push_back({Record::found(place + TL_HELD_RECORD_AT), number_at<std::uint32_t>(place + TL_HELD_SIGNERS_AT)});
        return found;
    }
    std::vector<Summary> summaries() const {
        std::vector<Summary> found;
        const std::uint8_t *place = memory.data() + TL_REGISTER_SUMMARIES_AT;
        for (int left = number_at<std::uint16_t>(memory.data() + TL_REGISTER_SUMMARY_COUNT_AT); left-- > 0; place += TL_SUMMARY_SIZE)
            found.push_back({place[TL_SUMMARY_ENGINE_AT], place[TL_SUMMARY_MODEL_AT], number_at<std::uint16_t>(place + TL_SUMMARY_SPEC_AT),
                             hash_at(place + TL_SUMMARY_INPUTS_AT)});
        return found;
    }
    // The bytes turned for an archive that packs them; from_columns undoes it.
    std::vector<std::uint8_t> to_columns() const {
        std::vector<std::uint8_t> out(TL_REGISTER_SIZE);
        tl_register_columns(memory.data(), memory.size(), out.data(), out.size());
        return out;
    }
    static Result<Register> from_columns(std::span<const std::uint8_t> columns) {
        std::vector<std::uint8_t> out(TL_REGISTER_SIZE);
        const std::uint32_t answer = tl_register_uncolumns(start(columns), columns.size(), out.data(), out.size());
        if (answer != TL_OK) return Refusal{answer};
        return from_bytes(out);
    }
    bool operator==(const Register &) const = default;
};

// What a report did to a track.
enum class Effect : std::uint32_t {
    changed = TL_CHANGED,
    contested = TL_CONTESTED,
    duplicate = TL_DUPLICATE,
    dropped = TL_DROPPED,
    waiting = TL_WAITING,
};

// A fix that waits beside a track: the model that it waits for, the engine that reported it, and the record.
struct Waiting {
    std::uint8_t model, engine;
    Record record;
    bool operator==(const Waiting &) const = default;
};

// What the merge of sky-commons/tally holds of one aircraft, with its shelf. It depends on the order of the calls.
class Track {
    std::array<std::uint8_t, TL_TRACK_SIZE> memory{};
    std::array<std::uint8_t, TL_SHELF_SIZE> beside{};

  public:
    // A stored track and its shelf: malformed where the one is no track, or the other no shelf of it.
    static Result<Track> from_bytes(std::span<const std::uint8_t> track, std::span<const std::uint8_t> shelf) {
        if (track.size() != TL_TRACK_SIZE || shelf.size() != TL_SHELF_SIZE) return Refusal::malformed;
        Track made;
        std::copy(track.begin(), track.end(), made.memory.begin());
        std::copy(shelf.begin(), shelf.end(), made.beside.begin());
        // An engine that there is not is refused, after a track or a shelf that is none.
        if (const Change change = made.convict(TL_MAX_ENGINE + 1); change != Refusal::engine_over_31) return Refusal::malformed;
        return made;
    }
    std::span<const std::uint8_t, TL_TRACK_SIZE> bytes() const { return memory; }
    std::span<const std::uint8_t, TL_SHELF_SIZE> shelf() const { return beside; }

    Result<Effect> report(std::uint32_t engine, const Record &record) {
        const auto bytes = record.bytes();
        const std::uint32_t answer = tl_track_report(memory.data(), memory.size(), beside.data(), beside.size(), engine,
                                                     bytes.data(), bytes.size());
        if (answer < TL_CHANGED) return Refusal{answer};
        return Effect{answer};
    }
    Change summary(std::uint32_t engine, std::uint32_t model, std::uint16_t spec, const Hash &inputs) {
        return Change(tl_track_summary(memory.data(), memory.size(), beside.data(), beside.size(), engine, model, spec,
                                       inputs.data(), inputs.size()));
    }
    Change convict(std::uint32_t engine) {
        return Change(tl_track_conviction(memory.data(), memory.size(), beside.data(), beside.size(), engine));
    }
    Result<Listing> listing() const {
        return Listing::written(TL_OUTPUT_TOO_SMALL + 1, [&](std::uint8_t *out, std::size_t size) {
            return tl_track_listing(memory.data(), memory.size(), out, size);
        });
    }
    // The convicted engines: bit n for engine n. How many reports were contested. The fixes that wait now, in their order.
    std::uint32_t convicted() const { return number_at<std::uint32_t>(memory.data() + TL_TRACK_CONVICTED_AT); }
    std::uint64_t contested() const { return number_at<std::uint64_t>(memory.data() + TL_TRACK_CONTESTED_AT); }
    std::vector<Waiting> waiting() const {
        std::vector<Waiting> found;
        const std::uint8_t *place = beside.data() + TL_SHELF_PLACES_AT;
        for (int left = beside[TL_SHELF_COUNT_AT]; left-- > 0; place += TL_WAITING_SIZE)
            found.push_back({place[TL_WAITING_MODEL_AT], place[TL_WAITING_ENGINE_AT], Record::found(place + TL_WAITING_RECORD_AT)});
        return found;
    }
    bool operator==(const Track &) const = default;
};

enum class Verdict : std::uint8_t { unjudged = TL_UNJUDGED, passed = TL_PASSED, failed = TL_FAILED };

// A fix that is decided on: its record, its model inputs (Register::inputs) and identity (Record::identity). The greater standing ranks first,
// and an item that is not consistent refuses nobody.
struct Item {
    Record record;
    Hash inputs, identity;
    std::uint64_t standing = 0;
    bool consistent = true, preferred = false;
    Verdict verified = Verdict::unjudged;
};

// An item that is refused, and the one that it is refused against, by their indices; whether that one supersedes it (else it is contested);
// and the chi-square between the two, where there is one.
struct Refused {
    std::uint8_t index, against;
    bool superseded;
    std::optional<double> chi_square;
};

// What is decided of one transmission's items, by their indices: those that are ranked, the first in rank first; those that a larger one
// repeats; those with which a smaller one disagrees.
struct Decision {
    std::vector<std::uint8_t> ranked, dominated;
    std::vector<Refused> refused;
};

// The decision of one transmission's items: of the dominated and the refused by ascending index, or by ascending identity where the items are
// in no fixed order (decide_any).
template <class Call> Result<Decision> decided(Call call, std::span<const Item> items) {
    std::vector<std::uint8_t> bytes;
    for (const Item &item : items) {
        bytes.insert(bytes.end(), item.record.bytes().begin(), item.record.bytes().end());
        bytes.insert(bytes.end(), item.inputs.begin(), item.inputs.end());
        bytes.insert(bytes.end(), item.identity.begin(), item.identity.end());
        for (int i = 0; i < 8; i++) bytes.push_back(static_cast<std::uint8_t>(item.standing >> (8 * i)));
        bytes.insert(bytes.end(), {item.consistent, item.preferred, static_cast<std::uint8_t>(item.verified)});
    }
    std::array<std::uint8_t, TL_ANSWER_SIZE> out;
    const std::uint32_t answer = call(start(std::span<const std::uint8_t>(bytes)), bytes.size(), out.data());
    if (answer != TL_OK) return Refusal{answer};
    Decision made;
    const auto indices = [&](std::size_t at) { return std::vector(out.begin() + at + 1, out.begin() + at + 1 + out[at]); };
    made.ranked = indices(TL_RANKED_AT);
    made.dominated = indices(TL_DOMINATED_AT);
    const std::uint8_t *one = out.data() + TL_REFUSALS_AT + 1;
    for (int left = out[TL_REFUSALS_AT]; left-- > 0; one += TL_REFUSAL_SIZE) {
        Refused refused{one[TL_REFUSAL_INDEX_AT], one[TL_REFUSAL_AGAINST_AT], one[TL_REFUSAL_SUPERSEDED_AT] != 0, {}};
        if (one[TL_REFUSAL_MEASURED_AT] != 0) refused.chi_square = number_at<double>(one + TL_REFUSAL_CHI2_AT);
        made.refused.push_back(refused);
    }
    return made;
}
inline Result<Decision> decide(std::span<const Item> items) { return decided(tl_decide, items); }
inline Result<Decision> decide_any(std::span<const Item> items) { return decided(tl_decide_any, items); }

} // namespace toastlagoon

#endif
#endif
