// folugben.hpp: abstract state storage for simulators of abstract state machines, for C++20, over folugben.h.
//
// An element, a set, a bag and a value are values of their own. Each other class owns a slot on the heap, which is released with
// it; it can be moved, and not copied. What was moved from is empty: a call on it throws code::empty, and a `try_` call returns
// that. An agent is returned to its storage when it is destroyed, so that its moves are in the next journal. What folugben.h says
// of threads holds: an object is used in one thread at a time, except a storage, which has a lock of its own. A storage that is
// copied is one storage, which two objects share.
//
// The calls whose name begins with `try_` are noexcept, and return a code, or an `outcome`; those beside them throw an error
// instead. A `conflict` alone means: begin the step again. A step stays with its agent wherever that object is moved to, and is refused with
// code::empty once the agent is returned.
//
// Each agent follows all moves in a state of its own. If one thread plays several agents of a storage by turns, the one that is
// about to poll takes the state of the one that polled last there, if that has ended its step or fired since and is in no other
// step. So each move is followed about once, and not once for each agent. An agent whose state was taken polls before it is shown
// again by `peek`, `state`, `scan` and `go_on`, which otherwise don't poll; so it never goes back.
//
//    folugben::storage storage(R"([[["count"],0]])", 1000);
//    folugben::agent agent = storage.make_agent(0);
//    folugben::location count("count");
//    auto played = agent.play([&](folugben::step &step) {
//        auto next = step.get(count).number() + 1;
//        folugben::instructions move;
//        step.push(move.put(count, next));
//        return next;
//    });
//    // played.number is that of the move, and played.result is next
#ifndef FOLUGBEN_HPP
#define FOLUGBEN_HPP

#include <folugben.h>

#include <fcntl.h>
#include <sys/file.h>
#include <sys/stat.h>
#include <unistd.h>

#include <algorithm>
#include <array>
#include <atomic>
#include <cerrno>
#include <charconv>
#include <chrono>
#include <compare>
#include <concepts>
#include <cstddef>
#include <cstdint>
#include <deque>
#include <filesystem>
#include <iterator>
#include <map>
#include <memory>
#include <mutex>
#include <new>
#include <optional>
#include <set>
#include <span>
#include <stdexcept>
#include <string>
#include <string_view>
#include <system_error>
#include <thread>
#include <type_traits>
#include <utility>
#include <variant>
#include <vector>

namespace folugben {

// What calls return, as folugben.h says.
enum class [[nodiscard]] code : std::int32_t {
    done = ASM_DONE,
    stale = ASM_STALE,
    clash = ASM_CLASH,
    memory = ASM_MEMORY,
    full = ASM_FULL,
    empty = ASM_EMPTY,
    capacity = ASM_CAPACITY,
    small = ASM_SMALL,
    busy = ASM_BUSY,
    many = ASM_MANY,
    no_answer = ASM_NO_ANSWER,
    taken = ASM_TAKEN,
    number = ASM_NUMBER,
    missing = ASM_MISSING,
    other = ASM_OTHER,
    illegal = ASM_ILLEGAL,
    not_json = ASM_NOT_JSON,
    shape = ASM_SHAPE,
    version = ASM_VERSION,
    cut = ASM_CUT,
    large = ASM_LARGE,
    moved = ASM_MOVED,
    deep = ASM_DEEP,
    apart = ASM_APART,
    agents = ASM_AGENTS,
    ahead = ASM_AHEAD,
    operand = ASM_OPERAND,
    no_form = ASM_NO_FORM,
    no_journal = ASM_NO_JOURNAL,
    no_push = ASM_NO_PUSH,
    no_agent = ASM_NO_AGENT,
    no_part = ASM_NO_PART,
    not_full = ASM_NOT_FULL,
    many_calls = ASM_MANY_CALLS,
    long_line = ASM_LONG_LINE,
    long_move = ASM_LONG_MOVE,
    name = ASM_NAME,
    order = ASM_ORDER,
    not_next = ASM_NOT_NEXT,
    opening = ASM_OPENING,
    previous = ASM_PREVIOUS,
    damaged = ASM_DAMAGED,
    counts = ASM_COUNTS,
    long_run = ASM_LONG_RUN,
    one_segment = ASM_ONE_SEGMENT,
    no_instruction = ASM_NO_INSTRUCTION,
};

// Returns what a code means, in a line of English.
inline std::string meaning(code of) {
    std::array<std::uint8_t, 256> text;
    std::size_t written = 0;
    const auto number = static_cast<std::int32_t>(of);
    if (asm_error_text(number, text.data(), text.size(), &written) != ASM_DONE) return "code " + std::to_string(number);
    return {reinterpret_cast<const char *>(text.data()), written};
}

// Reports why a call wasn't done: its code, and the text of its answer if there is one, such as {"stale":["count"]}. Nothing
// was fired or lost.
class error : public std::runtime_error {
  public:
    error(folugben::code why, std::string text) : std::runtime_error(message(why, text)), code_(why), text_(std::move(text)) {}
    folugben::code code() const noexcept { return code_; }
    const std::string &text() const noexcept { return text_; }

  private:
    // Leaves out what the code means where the text says more.
    static std::string message(folugben::code why, const std::string &text) {
        using folugben::code;
        if (text.empty())
            return why == code::empty ? "the object was moved from, returned to its storage, or is over" : meaning(why);
        const bool says_all = why == code::not_json || why == code::shape || why == code::capacity || why == code::agents ||
                              why == code::ahead || why == code::operand;
        return says_all ? text : meaning(why) + ": " + text;
    }
    folugben::code code_;
    std::string text_;
};

// Reports a commit that met another agent's moves: begin the step again, as `play` does. Its code is code::stale, code::clash or
// code::busy. It is all that a loop by hand catches.
class conflict : public error {
  public:
    using error::error;
};
// The outcome of a commit: with code::done the number of the move. A conflict is code::stale, code::clash or code::busy: begin the
// step again.
struct [[nodiscard]] outcome {
    folugben::code code = folugben::code::done;
    std::uint32_t number = 0;
    explicit operator bool() const noexcept { return code == folugben::code::done; }
    bool is_conflict() const noexcept {
        return code == folugben::code::stale || code == folugben::code::clash || code == folugben::code::busy;
    }
};
// Reports a push whose updates clash on what the step sees; or a fire of a move without a step, which would clash again.
class clash : public error {
  public:
    using error::error;
};
class full : public error {
  public:
    using error::error;
};
// Reports a move of an agent that wasn't returned; `number()` is the move's number.
class missing : public error {
  public:
    explicit missing(std::uint32_t number) : error(folugben::code::missing, "move " + std::to_string(number)), number_(number) {}
    std::uint32_t number() const noexcept { return number_; }

  private:
    std::uint32_t number_;
};
// Reports the first thing that is wrong with a run: in which part, and at which call of it (code::illegal, both from 0 up), or
// at which line of it (code::not_json and code::shape, from 1 up; else 0).
class audit_error : public error {
  public:
    audit_error(folugben::code why, const asm_audit_numbers &numbers) : error(why, place(why, numbers)), numbers_(numbers) {}
    std::uint64_t part() const noexcept { return numbers_.parts; }
    std::uint64_t call() const noexcept { return code() == folugben::code::illegal ? numbers_.calls : 0; }
    std::uint64_t line() const noexcept { return code() == folugben::code::illegal ? 0 : numbers_.calls; }

  private:
    static std::string place(folugben::code why, const asm_audit_numbers &counts) {
        std::string text = "part " + std::to_string(counts.parts);
        if (why == folugben::code::illegal) return text + " call " + std::to_string(counts.calls);
        return counts.calls == 0 ? text : text + " line " + std::to_string(counts.calls);
    }
    asm_audit_numbers numbers_;
};

namespace detail {

inline const std::uint8_t *bytes(std::string_view text) noexcept { return reinterpret_cast<const std::uint8_t *>(text.data()); }

[[noreturn]] inline void fail(code why, std::string text) {
    switch (why) {
    case code::stale:
    case code::busy: throw conflict(why, std::move(text));
    case code::clash: throw clash(why, std::move(text));
    case code::full: throw full(why, std::move(text));
    case code::memory: throw std::bad_alloc();
    default: throw error(why, std::move(text));
    }
}

// Throws for a number that is out of its range.
[[noreturn]] inline void fail_range(code it, std::string_view what, std::uint64_t number, std::uint64_t least, std::uint64_t most) {
    throw error(it, std::string(what) + " is " + std::to_string(number) + ", and must be " + std::to_string(least) + " to " +
                                 std::to_string(most));
}
inline void expect_capacity(code it, std::uint32_t capacity) {
    if (it == code::capacity) fail_range(it, "the capacity", capacity, 1, 1048576);
}
inline std::string ahead_of(std::uint32_t seen) {
    return "a number is above the " + std::to_string(seen) + " moves that the agent has seen";
}

// Returns whether a list in the text is nested too deep. A text nested deeper than any may be is otherwise reported as no JSON.
inline bool nests_too_deep(std::string_view text) noexcept {
    int depth = 0;
    bool is_in_text = false, is_escaped = false;
    for (std::size_t i = 0; i < text.size(); ++i) {
        const char it = text[i];
        if (is_escaped) is_escaped = false;
        else if (is_in_text && it == '\\') is_escaped = true;
        else if (it == '"') is_in_text = !is_in_text;
        else if (!is_in_text && text.substr(i).starts_with("{\"list\"")) ++depth;
        else if (!is_in_text && it == '}' && depth > 0) --depth; // else of a set, a bag or an event, outside of all lists
        if (depth > 8) return true;
    }
    return false;
}

// Returns the slot of what was moved from, which is empty: calls that would fill it aren't made.
template <class Handle> Handle *nothing() noexcept {
    thread_local Handle empty{};
    return &empty;
}

// A slot that never moves, and is released with its owner.
template <class Handle> class owned_slot {
  public:
    owned_slot() : at_(new Handle{}) {}
    Handle *get() const noexcept { return at_ ? at_.get() : nothing<Handle>(); }
    // Whether it wasn't moved from.
    explicit operator bool() const noexcept { return bool(at_); }

  private:
    struct release {
        void operator()(Handle *handle) const noexcept {
            asm_free(&handle->slot);
            delete handle;
        }
    };
    std::unique_ptr<Handle, release> at_;
};

// Makes a call that writes a text, again with more room if there is too little. The text is then the call's, with any code.
template <class Call> code text_of_call(Call call, std::string &text) {
    text.resize(256);
    for (;;) {
        std::size_t written = 0;
        const code it{call(reinterpret_cast<std::uint8_t *>(text.data()), text.size(), &written)};
        text.resize(written);
        if (it != code::small) return it;
    }
}

inline bool is_refused(code it) noexcept { return it == code::not_json || it == code::shape; }

inline std::string explanation(std::int32_t form, std::string_view refused) {
    std::string text;
    auto call = [&](auto *out, auto room, auto *written) {
        return asm_explain(form, bytes(refused), refused.size(), out, room, written);
    };
    if (text_of_call(call, text) == code::memory) throw std::bad_alloc();
    return nests_too_deep(refused) ? "lists nest at most 8 deep" : text;
}

// Returns the text between two others.
inline std::string within(std::string_view before, std::string_view text, std::string_view after) {
    std::string all;
    all.reserve(before.size() + text.size() + after.size());
    return all.append(before).append(text).append(after);
}

inline std::string move_explanation(std::string_view move) {
    return explanation(ASM_FORM_MOVE, within("{\"fire\":", move, ",\"reads\":[]}"));
}

// Throws for the line of a journal, counted from 1, with what is wrong with it.
[[noreturn]] inline void fail_line(code it, std::string_view journal, std::uint64_t line) {
    for (std::uint64_t i = 1; i < line; ++i) journal.remove_prefix(std::min(journal.find('\n'), journal.size() - 1) + 1);
    std::string why = line == 1 ? "" : explanation(ASM_FORM_EVENT, journal.substr(0, journal.find('\n')));
    fail(it, "line " + std::to_string(line) + (why.empty() ? "" : ": ") + why);
}

inline void done(code it, std::string text = {}) {
    if (it != code::done) fail(it, std::move(text));
}
inline void done(std::int32_t it) { done(code{it}); }

} // namespace detail

namespace detail {

template <class It>
concept integer = std::is_integral_v<It> && !std::is_same_v<It, bool> && sizeof(It) <= 8 && (std::is_signed_v<It> || sizeof(It) < 8);

inline void write_text(std::string &out, std::string_view text) {
    constexpr std::string_view digits = "0123456789abcdef";
    out += '"';
    for (char it : text) {
        const auto byte = static_cast<unsigned char>(it);
        if (byte < 0x20) {
            out.append("\\u00").append(1, digits[byte >> 4]).append(1, digits[byte & 15]);
            continue;
        }
        if (it == '"' || it == '\\') out += '\\';
        out += it;
    }
    out += '"';
}

// Writes the items between brackets.
template <class Items, class Write> void write_items(std::string &out, const Items &items, Write write) {
    char before = '[';
    for (const auto &it : items) {
        out += before;
        write(it);
        before = ',';
    }
    out.append(before == '[' ? "[" : "").append("]");
}

} // namespace detail

// What arguments of locations, lists, sets and bags are made of: undef, a boolean, a number, a text or a list. Elements are in the
// storage's order.
class element {
  public:
    element(std::nullptr_t = nullptr) noexcept {}
    template <std::same_as<bool> Truth> element(Truth is_true) noexcept : it_(is_true) {}
    template <detail::integer Integer> element(Integer number) noexcept : it_(static_cast<std::int64_t>(number)) {}
    element(std::string text) noexcept : it_(std::move(text)) {}
    element(std::string_view text) : it_(std::string(text)) {}
    element(const char *text) : it_(std::string(text)) {}
    element(std::vector<element> items) noexcept : it_(std::move(items)) {}

    asm_kind kind() const noexcept { return static_cast<asm_kind>(it_.index()); }
    bool is_undef() const noexcept { return it_.index() == 0; }
    bool is_true() const noexcept { return it_ == decltype(it_)(true); }
    // Returns the number; of any other kind code::shape.
    std::int64_t number() const {
        const auto *it = std::get_if<std::int64_t>(&it_);
        if (!it) detail::fail(code::shape, "no number is there");
        return *it;
    }
    // Returns the number; `otherwise` if it is none.
    std::int64_t number_or(std::int64_t otherwise) const noexcept {
        const auto *it = std::get_if<std::int64_t>(&it_);
        return it ? *it : otherwise;
    }
    // Return the text and the list; empty if it is none.
    const std::string &text() const noexcept {
        static const std::string none;
        const auto *it = std::get_if<std::string>(&it_);
        return it ? *it : none;
    }
    const std::vector<element> &items() const noexcept {
        static const std::vector<element> none;
        const auto *it = std::get_if<std::vector<element>>(&it_);
        return it ? *it : none;
    }
    void write_json(std::string &out) const {
        switch (kind()) {
        case ASM_KIND_BOOL: out += is_true() ? "true" : "false"; break;
        case ASM_KIND_NUM: out += std::to_string(number()); break;
        case ASM_KIND_TEXT: detail::write_text(out, text()); break;
        case ASM_KIND_LIST:
            out += "{\"list\":";
            detail::write_items(out, items(), [&](const element &it) { it.write_json(out); });
            out += '}';
            break;
        default: out += "null";
        }
    }
    // Orders undef, false, true, numbers, texts by their bytes, and lists, of which a shorter one comes first.
    friend std::strong_ordering operator<=>(const element &one, const element &other) noexcept {
        if (auto by_kind = one.it_.index() <=> other.it_.index(); by_kind != 0 || one.is_undef()) return by_kind;
        if (one.kind() == ASM_KIND_BOOL) return one.is_true() <=> other.is_true();
        if (one.kind() == ASM_KIND_NUM) return one.number_or(0) <=> other.number_or(0);
        if (one.kind() == ASM_KIND_TEXT) return one.text().compare(other.text()) <=> 0;
        if (auto by_size = one.items().size() <=> other.items().size(); by_size != 0) return by_size;
        for (std::size_t i = 0; i < one.items().size(); ++i)
            if (auto by_item = one.items()[i] <=> other.items()[i]; by_item != 0) return by_item;
        return std::strong_ordering::equal;
    }
    friend bool operator==(const element &one, const element &other) noexcept { return (one <=> other) == 0; }

  private:
    std::variant<std::monostate, bool, std::int64_t, std::string, std::vector<element>> it_;
};
static_assert(ASM_KIND_UNDEF == 0 && ASM_KIND_BOOL == 1 && ASM_KIND_NUM == 2 && ASM_KIND_TEXT == 3 && ASM_KIND_LIST == 4);

using list = std::vector<element>;
using set = std::set<element>;
// How often each element is there, which is at least once.
using bag = std::map<element, std::uint32_t>;

namespace detail {

inline std::string json_of(const list &items) {
    std::string text;
    element(items).write_json(text);
    return text;
}
inline std::string json_of(const set &elements) {
    std::string text = "{\"set\":";
    write_items(text, elements, [&](const element &it) { it.write_json(text); });
    return text += '}';
}
inline std::string json_of(const bag &counts) {
    std::string text = "{\"bag\":";
    write_items(text, counts, [&](const auto &it) {
        text += '[';
        it.first.write_json(text);
        text.append(",").append(std::to_string(it.second)).append("]");
    });
    return text += '}';
}
inline std::string json_of(std::string_view name, const list &args) {
    std::string text = "[";
    write_text(text, name);
    for (const element &it : args) it.write_json(text += ',');
    return text += ']';
}

// Reads a text that the library wrote, which has no white space.
class reader {
  public:
    explicit reader(std::string_view text) noexcept : left_(text) {}

    std::string_view left() const noexcept { return left_; }
    bool skip(std::string_view wanted) noexcept {
        if (!left_.starts_with(wanted)) return false;
        left_.remove_prefix(wanted.size());
        return true;
    }
    void expect(std::string_view wanted) {
        if (!skip(wanted)) fail(code::shape, "an answer of another form: " + std::string(left_.substr(0, 40)));
    }
    // Reads items between brackets, each by the call.
    template <class Item> void items(Item item) {
        expect("[");
        if (skip("]")) return;
        do item();
        while (skip(","));
        expect("]");
    }
    template <class Number> Number number() {
        Number it{};
        const auto parsed = std::from_chars(left_.data(), left_.data() + left_.size(), it);
        if (parsed.ec != std::errc()) expect("a number");
        left_.remove_prefix(static_cast<std::size_t>(parsed.ptr - left_.data()));
        return it;
    }
    std::string text() {
        std::string it;
        expect("\"");
        while (!skip("\"")) {
            if (left_.empty()) expect("\"");
            if (skip("\\")) {
                escaped(it);
            } else {
                it += left_.front();
                left_.remove_prefix(1);
            }
        }
        return it;
    }
    folugben::element element() {
        if (skip("null")) return nullptr;
        if (skip("true")) return true;
        if (skip("false")) return false;
        if (left_.starts_with('"')) return text();
        if (!skip("{\"list\":")) return number<std::int64_t>();
        list all;
        items([&] { all.push_back(element()); });
        expect("}");
        return all;
    }
    folugben::set set() {
        folugben::set all;
        expect("{\"set\":");
        items([&] { all.insert(element()); });
        expect("}");
        return all;
    }
    folugben::bag bag() {
        folugben::bag all;
        expect("{\"bag\":");
        items([&] {
            expect("[");
            auto it = element();
            expect(",");
            all.emplace(std::move(it), number<std::uint32_t>());
            expect("]");
        });
        expect("}");
        return all;
    }

  private:
    // Which characters the library escapes: control characters, quotes and backslashes.
    void escaped(std::string &out) {
        constexpr std::string_view letters = "\"\\/bfnrt", meant = "\"\\/\b\f\n\r\t";
        if (skip("u00")) {
            unsigned it = 0;
            const auto parsed = std::from_chars(left_.data(), left_.data() + (left_.size() < 2 ? left_.size() : 2), it, 16);
            if (parsed.ptr != left_.data() + 2 || it > 0x7f) expect("two digits");
            left_.remove_prefix(2);
            out += static_cast<char>(it);
            return;
        }
        const auto at = left_.empty() ? std::string_view::npos : letters.find(left_.front());
        if (at == std::string_view::npos) expect("an escape");
        out += meant[at];
        left_.remove_prefix(1);
    }
    std::string_view left_;
};

} // namespace detail

// The value of a location: undef, a boolean, a number, a text, or the JSON of a list, a set or a bag.
class value {
  public:
    value() = default;
    value(asm_value head, std::string bytes) noexcept : head_(head), bytes_(std::move(bytes)) {}
    value(const folugben::element &it) : head_{it.kind(), it.is_true() ? 1 : it.number_or(0)}, bytes_(it.text()) {
        if (it.kind() == ASM_KIND_LIST) bytes_ = detail::json_of(it.items());
    }
    template <class It>
        requires std::is_constructible_v<folugben::element, const It &>
    value(const It &it) : value(folugben::element(it)) {}
    value(const folugben::set &elements) : head_{ASM_KIND_SET, 0}, bytes_(detail::json_of(elements)) {}
    value(const folugben::bag &counts) : head_{ASM_KIND_BAG, 0}, bytes_(detail::json_of(counts)) {}
    asm_kind kind() const noexcept { return static_cast<asm_kind>(head_.kind); }
    bool is_undef() const noexcept { return head_.kind == ASM_KIND_UNDEF; }
    bool is_true() const noexcept { return head_.kind == ASM_KIND_BOOL && head_.number == 1; }
    // Returns the number; of any other kind, as undef or a text, code::shape.
    std::int64_t number() const {
        if (kind() != ASM_KIND_NUM) detail::fail(code::shape, "no number is there");
        return head_.number;
    }
    // Returns the number; `otherwise` if it is none.
    std::int64_t number_or(std::int64_t otherwise) const noexcept {
        return head_.kind == ASM_KIND_NUM ? head_.number : otherwise;
    }
    // Returns the text of a text, or the JSON of a list, a set or a bag; else empty.
    const std::string &text() const noexcept { return bytes_; }
    // Return the same as an element, a set and a bag; of any other kind code::shape.
    folugben::element as_element() const {
        switch (kind()) {
        case ASM_KIND_UNDEF: return nullptr;
        case ASM_KIND_BOOL: return is_true();
        case ASM_KIND_NUM: return head_.number;
        case ASM_KIND_TEXT: return bytes_;
        default: return detail::reader(bytes_).element();
        }
    }
    folugben::set as_set() const { return of_kind(ASM_KIND_SET).set(); }
    folugben::bag as_bag() const { return of_kind(ASM_KIND_BAG).bag(); }
    friend bool operator==(const value &one, const value &other) noexcept {
        return one.head_.kind == other.head_.kind && one.head_.number == other.head_.number && one.bytes_ == other.bytes_;
    }

  private:
    friend class operand;
    detail::reader of_kind(asm_kind wanted) const {
        if (kind() != wanted) detail::fail(code::shape, wanted == ASM_KIND_SET ? "no set is there" : "no bag is there");
        return detail::reader(bytes_);
    }
    asm_value head_{ASM_KIND_UNDEF, 0};
    std::string bytes_;
};

class location;

// A location with its value, as scans return it and storages are opened with it.
struct entry {
    std::string name;
    list args;
    folugben::value value;
    location at() const;
};

namespace detail {

inline value read_value(reader &from) {
    const std::string_view text = from.left();
    const bool is_set = text.starts_with("{\"set\":"), is_bag = text.starts_with("{\"bag\":");
    if (!is_set && !is_bag) {
        const element it = from.element();
        if (it.kind() != ASM_KIND_LIST) return value({it.kind(), it.is_true() ? 1 : it.number_or(0)}, it.text());
    } else if (is_set) {
        (void)from.set();
    } else {
        (void)from.bag();
    }
    const std::int32_t kind = is_set ? ASM_KIND_SET : is_bag ? ASM_KIND_BAG : ASM_KIND_LIST;
    return value({kind, 0}, std::string(text.substr(0, text.size() - from.left().size())));
}

// Returns the state [PAIR, ..] of the entries.
inline std::string json_of(const std::vector<entry> &state) {
    std::string text;
    write_items(text, state, [&](const entry &it) {
        text.append("[").append(json_of(it.name, it.args)).append(",");
        if (it.value.kind() < ASM_KIND_LIST) it.value.as_element().write_json(text);
        else text += it.value.text();
        text += ']';
    });
    return text;
}

// Returns the entries of a text [PAIR, ..].
inline std::vector<entry> entries(std::string_view text) {
    std::vector<entry> all;
    reader from(text);
    from.items([&] {
        entry it;
        from.expect("[[");
        it.name = from.text();
        while (from.skip(",")) it.args.push_back(from.element());
        from.expect("],");
        it.value = read_value(from);
        from.expect("]");
        all.push_back(std::move(it));
    });
    return all;
}

} // namespace detail

// A location that is prepared once, for agents of any storage: a function name with its arguments, such as
// location("account", "anna", 7).
class location {
  public:
    template <class... Args>
        requires(std::is_constructible_v<element, const Args &> && ...)
    explicit location(std::string_view name, const Args &...args) {
        prepare(detail::json_of(name, list{element(args)...}));
    }
    location(std::string_view name, const list &args) { prepare(detail::json_of(name, args)); }
    // Returns the location of its JSON, such as ["account","anna",7].
    static location of_json(std::string_view json) {
        location it;
        it.prepare(json);
        return it;
    }
    struct asm_location *get() const noexcept { return slot_.get(); }

  private:
    location() = default;
    void prepare(std::string_view json) {
        const code it{asm_location(detail::bytes(json), json.size(), slot_.get())};
        if (detail::is_refused(it)) detail::fail(it, detail::explanation(ASM_FORM_LOCATIONS, detail::within("[", json, "]")));
        detail::done(it);
    }
    detail::owned_slot<struct asm_location> slot_;
};

inline location entry::at() const { return location(name, args); }

// An operand of an instruction: an element, the value of a location, a set or a bag; sets and bags can only be put. It has no copy
// of a text.
class operand {
  public:
    operand(std::nullptr_t) noexcept {}
    template <std::same_as<bool> Truth> operand(Truth is_true) noexcept : kind_(ASM_KIND_BOOL), number_(is_true) {}
    template <detail::integer Integer> operand(Integer number) noexcept : kind_(ASM_KIND_NUM), number_(number) {}
    operand(std::string_view text) noexcept : kind_(ASM_KIND_TEXT), text_(text) {}
    operand(const char *text) noexcept : operand(std::string_view(text)) {}
    operand(const std::string &text) noexcept : operand(std::string_view(text)) {}
    operand(const value &from) noexcept : kind_(from.head_.kind), number_(from.head_.number), text_(from.bytes_) {}
    operand(const element &it) : kind_(it.kind()), number_(it.is_true() ? 1 : it.number_or(0)), text_(it.text()) {
        if (kind_ == ASM_KIND_LIST) own_ = detail::json_of(it.items());
    }
    operand(const list &items) : kind_(ASM_KIND_LIST), own_(detail::json_of(items)) {}
    operand(const set &elements) : kind_(ASM_KIND_SET), own_(detail::json_of(elements)) {}
    operand(const bag &counts) : kind_(ASM_KIND_BAG), own_(detail::json_of(counts)) {}
    // Returns a list, a set or a bag, as the kind says, such as {"set":[1,2]}.
    static operand of_json(asm_kind kind, std::string_view json) noexcept {
        operand it;
        it.kind_ = kind;
        it.text_ = json;
        return it;
    }
    // Returns where and why the JSON, or the text, is refused.
    std::string refusal() const {
        if (kind_ == ASM_KIND_TEXT) return "the text isn't UTF-8";
        if (kind_ < ASM_KIND_LIST) return {};
        return detail::explanation(ASM_FORM_MOVE, detail::within("{\"fire\":[[\"put\",[\"at\"],", text(), "]],\"reads\":[]}"));
    }
    code into(struct asm_move *move, const location &at, asm_verb verb, std::uint32_t amount) const noexcept {
        return code{asm_instruct(move, at.get(), verb, kind_, number_, detail::bytes(text()), text().size(), amount)};
    }
    code push_on(struct asm_agent *agent, struct asm_step *step, const location &at, asm_verb verb, std::uint32_t amount,
                 std::uint8_t *out, std::size_t room, std::size_t *written) const noexcept {
        return code{asm_push_at(agent, step, at.get(), verb, kind_, number_, detail::bytes(text()), text().size(), amount, out, room,
                                written)};
    }
    code count_in(struct asm_agent *agent, struct asm_step *step, const location &at, std::uint32_t &count) const noexcept {
        return code{asm_count_of(agent, step, at.get(), kind_, number_, detail::bytes(text()), text().size(), &count)};
    }

  private:
    operand() noexcept = default;
    std::string_view text() const noexcept { return own_.empty() ? text_ : std::string_view(own_); }
    std::int32_t kind_ = ASM_KIND_UNDEF;
    std::int64_t number_ = 0;
    std::string_view text_;
    std::string own_; // of a list, a set or a bag
};

// An instruction of a move: what it does at which location, with which operand. The amount is that of a bag, and else 0.
struct instruction {
    asm_verb verb{};
    std::string name;
    list args;
    folugben::value value;
    std::uint32_t amount{};
    location at() const { return location(name, args); }
};

// A move, gathered instruction by instruction. A refused instruction leaves it unchanged. More can be gathered after what is popped
// into it. It is a range of its instructions.
class instructions {
  public:
    // Stands at an instruction; a change of the move ends it.
    class iterator {
      public:
        using value_type = instruction;
        using difference_type = std::ptrdiff_t;
        using iterator_concept = std::input_iterator_tag;
        instruction operator*() const { return (*of_)[place_]; }
        iterator &operator++() noexcept {
            ++place_;
            return *this;
        }
        void operator++(int) noexcept { ++place_; }
        friend bool operator==(const iterator &one, const iterator &other) noexcept = default;

      private:
        friend class instructions;
        const instructions *of_ = nullptr;
        std::uint32_t place_ = 0;
    };
    iterator begin() const noexcept { return at(0); }
    iterator end() const noexcept { return at(static_cast<std::uint32_t>(size())); }
    // Returns the instruction at a place, from 0 on; code::no_instruction if there is none.
    instruction operator[](std::size_t place) const {
        if (place >= size()) detail::fail(code::no_instruction, "");
        asm_instruction found{};
        std::string text;
        const auto number = static_cast<std::uint32_t>(place);
        detail::done(detail::text_of_call([&](auto *out, auto room, auto *written) {
            return asm_move_at(slot_.get(), number, &found, out, room, written);
        }, text));
        instruction it{static_cast<asm_verb>(found.verb), {}, {}, value({found.kind, found.number}, text.substr(found.place)), found.amount};
        detail::reader from(text);
        from.expect("[");
        it.name = from.text();
        while (from.skip(",")) it.args.push_back(from.element());
        return it;
    }
    [[nodiscard]] code try_instruct(asm_verb verb, const location &at, const operand &what, std::uint32_t amount = 0) noexcept {
        if (!slot_) return code::empty;
        return what.into(slot_.get(), at, verb, amount);
    }
    instructions &put(const location &at, const operand &what) { return with(ASM_PUT, at, what); }
    instructions &add(const location &at, const operand &what) { return with(ASM_ADD, at, what); }
    instructions &remove(const location &at, const operand &what) { return with(ASM_REMOVE, at, what); }
    instructions &bag_add(const location &at, const operand &what, std::uint32_t n) { return with(ASM_BAGADD, at, what, n); }
    instructions &bag_remove(const location &at, const operand &what, std::uint32_t n) { return with(ASM_BAGREMOVE, at, what, n); }
    instructions &inc(const location &at, std::int64_t by) { return with(ASM_INC, at, by); }
    // Appends the other's instructions: it is then the move that does what both do at once. More than 4,096 instructions are
    // code::long_move; itself, or what was moved from, is code::empty; then nothing changes.
    [[nodiscard]] code try_unite(const instructions &other) noexcept {
        if (!slot_ || !other.slot_ || &other == this) return code::empty;
        if (other.size() == 0) return code::done;
        return code{asm_unite(slot_.get(), other.slot_.get())};
    }
    instructions &unite(const instructions &other) {
        const code it = try_unite(other);
        detail::done(it);
        return *this;
    }
    instructions &operator|=(const instructions &other) { return unite(other); }
    instructions &clear() noexcept {
        asm_free_move(slot_.get());
        return *this;
    }
    std::size_t size() const noexcept { return asm_move_length(slot_.get()); }
    struct asm_move *get() const noexcept { return slot_.get(); }

  private:
    friend class step;
    instructions &with(asm_verb verb, const location &at, const operand &what, std::uint32_t amount = 0) {
        const code it = try_instruct(verb, at, what, amount);
        if (it == code::operand && (verb == ASM_BAGADD || verb == ASM_BAGREMOVE) && amount == 0)
            detail::fail_range(it, "the amount", amount, 1, UINT32_MAX);
        detail::done(it, detail::is_refused(it) ? what.refusal() : std::string());
        return *this;
    }
    iterator at(std::uint32_t place) const noexcept {
        iterator it;
        it.of_ = this;
        it.place_ = place;
        return it;
    }
    detail::owned_slot<struct asm_move> slot_;
};

class agent;
class storage;

namespace detail {

struct shared {
    owned_slot<struct asm_storage> storage;
    std::mutex lock;
    std::vector<owned_slot<struct asm_agent>> waiting; // agents that were freed when there was no memory to return them
    bool is_recording = false;                   // what agents that are made or checked out do; under the lock
    // For each number, also of a returned agent, whether another agent took its state, so that it polls before that is shown.
    std::array<std::atomic<bool>, 256> behind{};

    shared() { waiting.reserve(256); }
    void give(owned_slot<struct asm_agent> agent) noexcept {
        std::lock_guard<std::mutex> guard(lock);
        if (asm_give(storage.get(), agent.get()) != ASM_DONE) waiting.push_back(std::move(agent));
    }
    code give_waiting() noexcept {
        while (!waiting.empty()) {
            const code it{asm_give(storage.get(), waiting.back().get())};
            if (it != code::done) return it;
            waiting.pop_back();
        }
        return code::done;
    }
};

// An agent's slot and its storage, which its steps share wherever the agent moves. A thread makes a call on the slot only while
// the seat names that thread, and takes the state only of an agent whose seat names it too, between two calls. The first call in
// another thread has the seat name that one; it waits while the state is being taken.
class seat {
  public:
    seat(std::shared_ptr<shared> storage, std::uint32_t number)
        : of_(std::move(storage)), storage_(of_.get()), number_(number % of_->behind.size()) {}
    ~seat() { give(); }
    seat(const seat &) = delete;
    seat &operator=(const seat &) = delete;

    // Returns the agent, for one call.
    struct asm_agent *get() const noexcept {
        claim(here());
        return slot_.get();
    }
    // Returns whether agents that the storage makes or checks out record.
    bool storage_records() const {
        std::lock_guard<std::mutex> guard(of_->lock);
        return of_->is_recording;
    }
    // Returns its storage, for comparisons.
    const shared *storage() const noexcept { return storage_; }
    void give() noexcept {
        claim(no_thread);
        owned_slot<struct asm_agent> last = std::move(slot_); // what its steps find from now on is empty
        if (of_ && last.get()->slot.full) of_->give(std::move(last));
        of_.reset();
    }
    void begin_step() noexcept { steps_.fetch_add(1, std::memory_order_relaxed); }
    void end_step() noexcept {
        act();
        steps_.fetch_sub(1, std::memory_order_relaxed);
    }
    // Whether commits record what their steps read.
    void record(bool is_recording) noexcept { is_recording_.store(is_recording, std::memory_order_relaxed); }
    bool is_recording() const noexcept { return is_recording_.load(std::memory_order_relaxed); }
    // Nothing more is done with its state until it polls again.
    void act() noexcept { has_acted_.store(true, std::memory_order_relaxed); }
    // Polls, before its state is shown without a poll, if another agent took it.
    code catch_up(const std::shared_ptr<seat> &own) noexcept {
        if (!of_ || !of_->behind[number_].load(std::memory_order_relaxed)) return code::done;
        begin_turn(own);
        std::uint32_t number = 0;
        return polled(code{asm_follow(get(), &number)});
    }
    // Runs after a poll; returns its code.
    code polled(code it) const noexcept {
        if (it == code::done || it == code::stale) of_->behind[number_].store(false, std::memory_order_relaxed);
        return it;
    }
    // Takes the state of the agent that polled last in this thread, if that has acted; before a poll of `own`, which is this.
    void begin_turn(const std::shared_ptr<seat> &own) noexcept {
        claim(here());
        if (const auto other = replace_last(own)) take_state(*other);
        has_acted_.store(false, std::memory_order_relaxed);
    }

  private:
    static constexpr std::uintptr_t no_thread = 0, claiming = 1;
    struct last {
        const shared *storage = nullptr;
        std::weak_ptr<seat> agent;
    };
    // The agents that polled last in a thread, of some storages; the latest first.
    struct last_ones {
        std::array<last, 8> all{};
        ~last_ones() { is_over() = true; }
    };
    // Returns whether this thread remembers no agents any more, as its objects are being destroyed.
    static bool &is_over() noexcept {
        thread_local bool it = false;
        return it;
    }
    // Returns an even number that identifies this thread, as long as that lives.
    static std::uintptr_t here() noexcept {
        thread_local std::uint64_t it = 0;
        return reinterpret_cast<std::uintptr_t>(&it);
    }
    void claim(std::uintptr_t thread) const noexcept {
        if (thread_.load(std::memory_order_relaxed) == thread) return;
        for (;;) {
            std::uintptr_t was = thread_.load(std::memory_order_relaxed) & ~claiming;
            if (thread_.compare_exchange_strong(was, thread, std::memory_order_acquire, std::memory_order_relaxed)) return;
            std::this_thread::yield();
        }
    }
    // Makes this the last agent of its storage in this thread; returns the one before, if that is another and still there.
    static std::shared_ptr<seat> replace_last(const std::shared_ptr<seat> &own) noexcept {
        if (is_over()) return nullptr;
        thread_local last_ones ones;
        auto &all = ones.all;
        std::ptrdiff_t at = 0;
        while (at < std::ssize(all) - 1 && all[static_cast<std::size_t>(at)].storage != own->storage_) ++at;
        std::rotate(all.begin(), all.begin() + at, all.begin() + at + 1);
        if (all.front().storage != own->storage_) all.front() = last{own->storage_, {}};
        auto &front = all.front().agent;
        if (!front.owner_before(own) && !own.owner_before(front)) return nullptr;
        return std::exchange(front, own).lock();
    }
    void take_state(seat &other) const noexcept {
        std::uintptr_t thread = here();
        if (!other.thread_.compare_exchange_strong(thread, thread | claiming, std::memory_order_acquire, std::memory_order_relaxed)) return;
        if (other.has_acted_.load(std::memory_order_relaxed) && other.steps_.load(std::memory_order_relaxed) == 0) {
            // An agent that was returned or abandoned is refused, and nothing is done.
            const bool is_done = asm_take_state(slot_.get(), other.slot_.get()) == ASM_DONE;
            if (is_done) of_->behind[other.number_].store(true, std::memory_order_relaxed);
        }
        other.thread_.store(here(), std::memory_order_release);
    }

    owned_slot<struct asm_agent> slot_;
    std::shared_ptr<shared> of_;
    const shared *storage_;
    std::size_t number_; // of the agent
    mutable std::atomic<std::uintptr_t> thread_{no_thread}; // of the last call
    std::atomic<std::uint32_t> steps_{0};                 // that haven't ended
    std::atomic<bool> has_acted_{false}, is_recording_{false};
};

// A step of an agent that hasn't ended.
class open_step {
  public:
    open_step() noexcept = default;
    explicit open_step(std::shared_ptr<seat> of) noexcept : seat_(std::move(of)) {
        if (seat_) seat_->begin_step();
    }
    ~open_step() {
        if (seat_) seat_->end_step();
    }
    open_step(open_step &&) noexcept = default;
    open_step &operator=(open_step &&other) noexcept {
        open_step ended = std::move(*this);
        seat_ = std::move(other.seat_);
        return *this;
    }
    struct asm_agent *get_agent() const noexcept { return seat_ ? seat_->get() : nothing<struct asm_agent>(); }
    bool is_recording() const noexcept { return seat_ && seat_->is_recording(); }
    code polled(code it) const noexcept { return seat_ ? seat_->polled(it) : it; }

  private:
    std::shared_ptr<seat> seat_;
};

// Returns the answer to the last answered call of an agent.
inline std::string answer(struct asm_agent *agent) {
    std::string text;
    done(text_of_call([&](auto *out, auto room, auto *written) { return asm_answer(agent, out, room, written); }, text));
    return text;
}

} // namespace detail

// A transaction. All that a step gets is of one state; later calls see what it pushes, which is fired as one move.
class step {
  public:
    std::uint32_t number() const noexcept { return number_; }
    std::uint32_t depth() const noexcept { return asm_depth(slot_.get()); }

    [[nodiscard]] code try_get(const location &at, value &what) noexcept;
    value get(const location &at);
    // Returns {"number":N,"values":[VALUE, ..]} of locations [LOC, ..].
    std::string get_json(std::string_view locations);
    // Returns the same, and tracks nothing: a commit fires even if another agent has written there since.
    std::string see_json(std::string_view locations);
    // Returns whether the set or the bag has the element, and makes no value of it; the location is tracked as by get. Where
    // nothing is, there is no element. Any other value is code::shape, and is tracked too.
    bool has(const location &at, const operand &element) { return count_of(at, element) > 0; }
    // Returns how often the set or the bag has the element: 0 or 1 of a set.
    std::uint32_t count_of(const location &at, const operand &element);
    [[nodiscard]] code try_count_of(const location &at, const operand &element, std::uint32_t &count) noexcept {
        return element.count_in(get_agent(), slot_.get(), at, count);
    }
    // Returns how many elements the set or the bag has, each of a bag as often as it is there; at most UINT64_MAX.
    std::uint64_t size(const location &at);
    [[nodiscard]] code try_size(const location &at, std::uint64_t &size) noexcept {
        return code{asm_size(get_agent(), slot_.get(), at.get(), &size)};
    }
    // Returns all locations of a function with their values, ascending. The step depends on the complete function.
    std::vector<entry> scan(std::string_view name) { return detail::entries(scan_json(name)); }
    // Returns the same as [PAIR, ..].
    std::string scan_json(std::string_view name);
    // Returns whether a scan would list a location, at the cost of one. The step depends on the complete function.
    bool any(std::string_view name);
    [[nodiscard]] code try_any(std::string_view name, bool &any) noexcept {
        std::uint32_t found = 0;
        const code it{asm_any(get_agent(), slot_.get(), detail::bytes(name), name.size(), &found)};
        any = found != 0;
        return it;
    }
    // Returns how many locations a scan would list, and makes no list. The step depends on the complete function.
    std::uint64_t count(std::string_view name);
    [[nodiscard]] code try_count(std::string_view name, std::uint64_t &count) noexcept {
        return code{asm_count(get_agent(), slot_.get(), detail::bytes(name), name.size(), &count)};
    }

    // Pushes the move; `text` is that of a refusal, such as {"clash":[LOC,CAUSE]}.
    [[nodiscard]] code try_push(const instructions &move, std::string &text) noexcept;
    void push(const instructions &move) {
        std::string text;
        const code it = try_push(move, text);
        detail::done(it, std::move(text));
    }
    // Pushes the move of one instruction, which is made at once. The codes are those of instructions::try_instruct and try_push.
    [[nodiscard]] code try_push(asm_verb verb, const location &at, const operand &what, std::uint32_t amount, std::string &text) noexcept;
    void push(asm_verb verb, const location &at, const operand &what, std::uint32_t amount = 0);
    [[nodiscard]] code try_extend(const instructions &move, std::string &text) noexcept;
    void extend(const instructions &move) {
        std::string text;
        const code it = try_extend(move, text);
        detail::done(it, std::move(text));
    }
    // Pushes the move [INSTR, ..], which may have sets, bags and lists.
    void push_json(std::string_view move);
    void extend_json(std::string_view move);
    [[nodiscard]] code try_pop() noexcept { return code{asm_pop(slot_.get())}; }
    void pop() { detail::done(try_pop()); }
    // Does the same; the one move that does what the popped ones do in turn replaces the content of `move`.
    [[nodiscard]] code try_pop_move(instructions &move) noexcept {
        if (!move.slot_) return code::empty;
        return code{asm_pop_move(slot_.get(), move.get())};
    }
    instructions pop_move() {
        instructions move;
        detail::done(try_pop_move(move));
        return move;
    }

    // Polls, and throws `conflict` with a location that was written since the step began: one on which it depends, or one of a
    // function that it scanned. A commit would be stale too. The agent's own state follows, so the step may read no more.
    void stands() {
        std::string text;
        const code it = try_stands(text);
        detail::done(it, std::move(text));
    }
    // Does the same without throwing; with code::stale `text` is {"stale":LOC}.
    [[nodiscard]] code try_stands(std::string &text);
    // Waits until the step stands no longer; returns whether that came before the time was over.
    template <class Count, class Period> bool wait(std::chrono::duration<Count, Period> timeout) {
        const auto end = std::chrono::steady_clock::now() + timeout;
        const auto longest = std::chrono::microseconds(10'000);
        std::string text;
        for (auto pause = std::chrono::microseconds(20);; pause = std::min(2 * pause, longest)) {
            const code it = try_stands(text);
            if (it == code::stale) return true;
            detail::done(it);
            const auto now = std::chrono::steady_clock::now();
            if (now >= end) return false;
            std::this_thread::sleep_until(std::min<decltype(now + timeout)>(now + pause, end));
        }
    }

    // Returns {"fire":[INSTR, ..],"reads":[NAMED, ..]}: what a commit would fire and name by now, which agent::fire_json takes.
    // The
    // functions that were scanned aren't in it.
    std::string offer_json();

    // Commits: fires one move that does what the pushed ones do in turn. With code::done the step is over. `commit` returns the
    // move's number, and throws `conflict` if the step must be begun again.
    outcome try_commit() noexcept;
    std::uint32_t commit();

    struct asm_step *get_slot() const noexcept { return slot_.get(); }

  private:
    friend class agent;
    step() = default;
    struct asm_agent *get_agent() const noexcept { return open_.get_agent(); }
    template <class Call, class ByText> code grow(Call call, ByText by_text, const instructions &move, std::string &text) noexcept;
    template <class Call> void grow_json(Call call, std::string_view move);
    template <class Call> std::string read_json_by(Call call, std::string_view locations);
    // Throws the conflict of the last commit.
    [[noreturn]] void fail_conflict();
    detail::open_step open_;
    detail::owned_slot<struct asm_step> slot_;
    outcome last_;
    std::uint32_t number_ = 0, fired_ = 0;
};

// The result of a play: the number of the fired move, which is 0 if the rule pushed nothing, so that nothing was fired; how
// often it was begun again; and what the rule returned.
template <class Result> struct played {
    std::uint32_t number;
    unsigned retries;
    Result result;
    bool has_fired() const noexcept { return number != 0; }
};
template <> struct played<void> {
    std::uint32_t number;
    unsigned retries;
    bool has_fired() const noexcept { return number != 0; }
};

// How long a play begins again after conflicts: for ever, unless a number of tries (at least one is made) or a time is set.
// Then its last conflict is thrown.
struct patience {
    unsigned tries = 0; // 0: any number
    std::chrono::nanoseconds timeout = std::chrono::nanoseconds::max();
};

// Reads the state and fires moves on it, in one thread at a time.
class agent {
  public:
    agent(agent &&) = default;
    agent &operator=(agent &&other) noexcept {
        if (this != &other) {
            give();
            seat_ = std::move(other.seat_);
        }
        return *this;
    }
    ~agent() { give(); }

    std::uint32_t seen() const noexcept { return asm_seen(get()); }
    std::uint32_t won() const noexcept { return asm_won(get()); }
    std::uint64_t misses() const noexcept { return asm_misses(get()); }

    // Has each commit of a step record what the step read, or not, which is the default. A commit that records first polls, and
    // adds a receipt of a read: the locations that its move names, which still have their values at the step's version. So the
    // journal shows what the move was computed from, and `check` judges that too. No read is added if the move names no location,
    // or if one of them was written since. What `scan` found stays out of the journal, and so does what `see_json` returned. Each
    // commit then takes up to twice the receipts.
    void record(bool is_recording) noexcept {
        if (seat_) seat_->record(is_recording);
    }

    [[nodiscard]] code try_begin(step &it) noexcept {
        if (!it.slot_) return code::empty;
        begin_turn();
        const code result = polled(code{asm_begin(get(), it.slot_.get(), &it.number_)});
        if (result == code::done) {
            it.open_ = detail::open_step(seat_);
            it.fired_ = 0;
        }
        return result;
    }
    step begin() {
        step it;
        detail::done(try_begin(it));
        return it;
    }

    // Begins a step, passes it to the rule and commits it, and begins again if that is a conflict, as long as the patience lasts:
    // agent.play(rule, {.tries = 3}). A rule that pushes nothing fires nothing. A rule may commit by itself: that ends the play,
    // with that move. What the rule throws ends it too, and the play fires nothing.
    template <class Rule> auto play(Rule &&rule, patience most = {}) -> played<std::invoke_result_t<Rule &, step &>> {
        using result = std::invoke_result_t<Rule &, step &>;
        const auto start = std::chrono::steady_clock::now();
        for (unsigned tries = 0;; ++tries) {
            step it = begin();
            std::uint32_t number = 0;
            if constexpr (std::is_void_v<result>) {
                rule(it);
                if (ends(it, number)) return {number, tries};
            } else {
                result value = rule(it);
                if (ends(it, number)) return {number, tries, std::forward<result>(value)};
            }
            const bool is_late = std::chrono::steady_clock::now() - start >= most.timeout;
            if (is_late || (most.tries != 0 && tries + 1 >= most.tries)) it.fail_conflict();
            back_off(tries);
        }
    }

    // Polls; returns how many moves it has then seen.
    std::uint32_t follow() {
        begin_turn();
        std::uint32_t number = 0;
        detail::done(polled(code{asm_follow(get(), &number)}));
        return number;
    }
    [[nodiscard]] code try_peek(const location &at, std::uint32_t &number, value &what) noexcept {
        if (const code it = catch_up(); it != code::done) return it;
        return value_of_call(
            [&](asm_value *head, auto *out, auto room, auto *written) {
                return asm_peek_at(get(), at.get(), &number, head, out, room, written);
            },
            what);
    }
    value peek(const location &at) {
        value what;
        std::uint32_t number = 0;
        detail::done(try_peek(at, number, what));
        return what;
    }
    // Returns {"number":N,"values":[VALUE, ..]} of any number of locations [LOC, ..] in its own state.
    std::string peek_json(std::string_view locations) {
        detail::done(catch_up());
        std::string text;
        const code it = detail::text_of_call(
            [&](auto *out, auto room, auto *written) {
                return asm_peek(get(), detail::bytes(locations), locations.size(), out, room, written);
            },
            text);
        if (detail::is_refused(it)) detail::fail(it, detail::explanation(ASM_FORM_LOCATIONS, locations));
        detail::done(it);
        return text;
    }
    // Return its own state, ascending by locations; and the same as [PAIR, ..].
    std::vector<entry> state() { return detail::entries(state_json()); }
    std::string state_json() {
        detail::done(catch_up());
        std::string text;
        std::uint32_t number = 0;
        detail::done(detail::text_of_call([&](auto *out, auto room, auto *written) { return asm_state(get(), &number, out, room, written); },
                                  text));
        return text;
    }
    // Returns the same of one function alone, with its state's version, under which a fire names the scan.
    std::vector<entry> scan(std::string_view name, std::uint32_t &number) { return detail::entries(scan_json(name, number)); }
    std::string scan_json(std::string_view name, std::uint32_t &number) {
        detail::done(catch_up());
        std::string text;
        detail::done(detail::text_of_call(
            [&](auto *out, auto room, auto *written) {
                return asm_scan(get(), detail::bytes(name), name.size(), &number, out, room, written);
            },
            text));
        return text;
    }

    // Return the answer to a read of [LOC, ..], and to a fire of {"fire":[INSTR, ..],"reads":[NAMED, ..]}, which may depend on
    // the complete functions of [[NAME,NUMBER], ..] too.
    std::string read_json(std::string_view locations) {
        begin_turn();
        const code it = polled(code{asm_read(get(), detail::bytes(locations), locations.size())});
        if (detail::is_refused(it)) detail::fail(it, detail::explanation(ASM_FORM_LOCATIONS, locations));
        detail::done(it);
        return answer();
    }
    [[nodiscard]] code try_fire_json(std::string_view call, asm_numbers &numbers) noexcept {
        return try_fire_json(call, "[]", numbers);
    }
    [[nodiscard]] code try_fire_json(std::string_view call, std::string_view scans, asm_numbers &numbers) noexcept {
        const code it{asm_try_fire_over(get(), detail::bytes(call), call.size(), detail::bytes(scans), scans.size(), &numbers)};
        if (seat_) seat_->act();
        return it;
    }
    std::uint32_t fire_json(std::string_view call, std::string_view scans = "[]") {
        asm_numbers numbers{};
        const code it = try_fire_json(call, scans, numbers);
        if (detail::is_refused(it)) detail::fail(it, detail::explanation(ASM_FORM_MOVE, call));
        if (it == code::stale || it == code::clash) detail::fail(it, answer());
        if (it == code::ahead) throw error(it, detail::ahead_of(seen()));
        detail::done(it);
        return numbers.fired;
    }
    // Polls, and throws `conflict` with the smallest location of [NAMED, ..] that was written since. A fire may still be refused, by a
    // move that comes in between.
    void stands_json(std::string_view reads) {
        std::string text;
        const code it = polled(detail::text_of_call(
            [&](auto *out, auto room, auto *written) {
                return asm_stands(get(), detail::bytes(reads), reads.size(), out, room, written);
            },
            text));
        if (detail::is_refused(it)) text = detail::explanation(ASM_FORM_MOVE, detail::within("{\"fire\":[],\"reads\":", reads, "}"));
        if (it == code::ahead) text = detail::ahead_of(seen());
        detail::done(it, std::move(text));
    }
    // Returns the answer to the last answered call.
    std::string answer() { return detail::answer(get()); }

    // Learns what the other agent of the same storage has seen.
    void learn(agent &other) {
        if (get_of() != other.get_of()) detail::fail(code::other, {});
        detail::done(asm_learn(get(), other.get()));
    }

    // Opens a storage for 1 to 1,048,576 moves with the agent's own state, after all moves of its storage: that is full, and the
    // agent has polled to its end, as by `follow`; otherwise it is code::not_full. Agents and numbers start again. No other agent
    // waits.
    storage go_on(std::uint32_t capacity);

    // Frees the agent without returning it: what it fired is missing in each journal.
    void abandon() noexcept { asm_free_agent(get()); }
    // Returns the agent for one call of folugben.h, in this thread.
    struct asm_agent *get() const noexcept { return seat_ ? seat_->get() : detail::nothing<struct asm_agent>(); }

  private:
    friend class storage;
    friend class step;
    explicit agent(std::shared_ptr<detail::seat> seat) : seat_(std::move(seat)) {}

    const detail::shared *get_of() const noexcept { return seat_ ? seat_->storage() : nullptr; }
    void begin_turn() noexcept {
        if (seat_) seat_->begin_turn(seat_);
    }
    code catch_up() noexcept { return seat_ ? seat_->catch_up(seat_) : code::done; }
    code polled(code it) const noexcept { return seat_ ? seat_->polled(it) : it; }
    void give() noexcept {
        if (seat_) seat_->give();
        seat_.reset();
    }
    template <class Call> static code value_of_call(Call call, value &what) noexcept try {
        std::string bytes;
        asm_value head{};
        const code it = detail::text_of_call([&](auto *out, auto room, auto *written) { return call(&head, out, room, written); }, bytes);
        if (it == code::done) what = value(head, std::move(bytes));
        return it;
    } catch (const std::bad_alloc &) {
        return code::memory;
    }
    // Commits a play's step, unless its rule did, with the number of its move; returns false if it must be begun again.
    static bool ends(step &it, std::uint32_t &number) {
        if (!it.slot_) detail::fail(code::empty, {});
        number = it.fired_;
        if (number != 0 || it.depth() == 0) return true;
        it.last_ = it.try_commit();
        if (it.last_.is_conflict()) return false;
        detail::done(it.last_.code);
        number = it.last_.number;
        return true;
    }
    static void back_off(unsigned tries) {
        if (tries < 8) return std::this_thread::yield();
        std::this_thread::sleep_for(std::chrono::microseconds(1u << (tries < 18 ? tries - 8 : 10)));
    }

    std::shared_ptr<detail::seat> seat_;
};

inline code step::try_get(const location &at, value &what) noexcept {
    return agent::value_of_call(
        [&](asm_value *head, auto *out, auto room, auto *written) {
            return asm_get_at(get_agent(), slot_.get(), at.get(), head, out, room, written);
        },
        what);
}

inline value step::get(const location &at) {
    value what;
    const code it = try_get(at, what);
    detail::done(it);
    return what;
}

inline std::uint32_t step::count_of(const location &at, const operand &element) {
    std::uint32_t count = 0;
    const code it = try_count_of(at, element, count);
    if (detail::is_refused(it) || it == code::operand) instructions().add(at, element); // which throws if the element is refused
    detail::done(it, it == code::shape ? "the value is no set and no bag" : std::string());
    return count;
}

inline std::uint64_t step::size(const location &at) {
    std::uint64_t size = 0;
    const code it = try_size(at, size);
    detail::done(it, it == code::shape ? "the value is no set and no bag" : std::string());
    return size;
}

template <class Call> std::string step::read_json_by(Call call, std::string_view locations) {
    std::string text;
    const code it = detail::text_of_call(
        [&](auto *out, auto room, auto *written) {
            return call(get_agent(), slot_.get(), detail::bytes(locations), locations.size(), out, room, written);
        },
        text);
    if (detail::is_refused(it)) detail::fail(it, detail::explanation(ASM_FORM_LOCATIONS, locations));
    detail::done(it);
    return text;
}

inline std::string step::get_json(std::string_view locations) { return read_json_by(asm_get, locations); }
inline std::string step::see_json(std::string_view locations) { return read_json_by(asm_see, locations); }

inline std::string step::offer_json() {
    std::string text;
    auto call = [&](auto *out, auto room, auto *written) { return asm_offer(slot_.get(), out, room, written); };
    detail::done(detail::text_of_call(call, text));
    return text;
}

inline code step::try_stands(std::string &text) {
    auto call = [&](auto *out, auto room, auto *written) { return asm_step_stands(get_agent(), slot_.get(), out, room, written); };
    return open_.polled(detail::text_of_call(call, text));
}

inline std::string step::scan_json(std::string_view name) {
    std::string text;
    const code it = detail::text_of_call(
        [&](auto *out, auto room, auto *written) {
            return asm_step_scan(get_agent(), slot_.get(), detail::bytes(name), name.size(), out, room, written);
        },
        text);
    detail::done(it);
    return text;
}

inline bool step::any(std::string_view name) {
    bool found = false;
    detail::done(try_any(name, found));
    return found;
}

inline std::uint64_t step::count(std::string_view name) {
    std::uint64_t found = 0;
    detail::done(try_count(name, found));
    return found;
}

template <class Call, class ByText>
code step::grow(Call call, ByText by_text, const instructions &move, std::string &text) noexcept try {
    // A move without instructions has no slot that holds it.
    const std::string_view none = "[]";
    return detail::text_of_call(
        [&](auto *out, auto room, auto *written) {
            return move.size() == 0
                       ? by_text(get_agent(), slot_.get(), detail::bytes(none), none.size(), out, room, written)
                       : call(get_agent(), slot_.get(), move.get(), out, room, written);
        },
        text);
} catch (const std::bad_alloc &) {
    return code::memory;
}

inline code step::try_push(const instructions &move, std::string &text) noexcept {
    return grow(asm_push_move, asm_push, move, text);
}
inline code step::try_push(asm_verb verb, const location &at, const operand &what, std::uint32_t amount,
                           std::string &text) noexcept try {
    return detail::text_of_call(
        [&](auto *out, auto room, auto *written) {
            return static_cast<std::int32_t>(what.push_on(get_agent(), slot_.get(), at, verb, amount, out, room, written));
        },
        text);
} catch (const std::bad_alloc &) {
    return code::memory;
}
inline void step::push(asm_verb verb, const location &at, const operand &what, std::uint32_t amount) {
    std::string text;
    const code it = try_push(verb, at, what, amount, text);
    if (detail::is_refused(it) || it == code::operand) instructions().with(verb, at, what, amount); // which throws what is wrong
    detail::done(it, std::move(text));
}
inline code step::try_extend(const instructions &move, std::string &text) noexcept {
    return grow(asm_extend_move, asm_extend, move, text);
}

template <class Call> void step::grow_json(Call call, std::string_view move) {
    std::string text;
    const code it = detail::text_of_call(
        [&](auto *out, auto room, auto *written) {
            return call(get_agent(), slot_.get(), detail::bytes(move), move.size(), out, room, written);
        },
        text);
    if (detail::is_refused(it))
        text = detail::move_explanation(move);
    detail::done(it, std::move(text));
}

inline void step::push_json(std::string_view move) { grow_json(asm_push, move); }
inline void step::extend_json(std::string_view move) { grow_json(asm_extend, move); }

inline outcome step::try_commit() noexcept {
    asm_numbers numbers{};
    const auto call = open_.is_recording() ? asm_commit_recorded : asm_commit;
    const code it{call(get_agent(), slot_.get(), &numbers)};
    if (it == code::done) {
        open_ = {};
        fired_ = numbers.fired;
    }
    return {it, numbers.fired};
}

inline void step::fail_conflict() {
    const bool is_answered = last_.code == code::stale || last_.code == code::clash;
    throw conflict(last_.code, is_answered ? detail::answer(get_agent()) : std::string());
}

inline std::uint32_t step::commit() {
    last_ = try_commit();
    if (last_.is_conflict()) fail_conflict();
    detail::done(last_.code);
    return last_.number;
}

// The verdict on a journal: legal with the numbers of its calls and moves, or the first wrong call.
struct legality {
    bool is_legal;
    std::uint64_t calls; // of an illegal one the number of the first wrong call, from 0 up
    std::uint32_t moves;
};

inline legality check(std::string_view journal) {
    legality verdict{};
    const code it{asm_check(detail::bytes(journal), journal.size(), &verdict.calls, &verdict.moves)};
    if (detail::is_refused(it)) detail::fail_line(it, journal, verdict.calls);
    if (it != code::illegal) detail::done(it);
    verdict.is_legal = it == code::done;
    return verdict;
}

// Returns the state [PAIR, ..] after the moves of a journal, which isn't checked.
inline std::string replay_json(std::string_view journal) {
    std::string text;
    std::uint64_t line = 0;
    const code it = detail::text_of_call(
        [&](auto *out, auto room, auto *written) {
            return asm_replay(detail::bytes(journal), journal.size(), out, room, written, &line);
        },
        text);
    if (detail::is_refused(it)) detail::fail_line(it, journal, line);
    detail::done(it);
    return text;
}

// Returns the updates [PAIR, ..] of the move [INSTR, ..] on the state [PAIR, ..]; throws `clash`.
inline std::string aggregate_json(std::string_view state, std::string_view move) {
    std::string text;
    const code it = detail::text_of_call(
        [&](auto *out, auto room, auto *written) {
            return asm_aggregate(detail::bytes(state), state.size(), detail::bytes(move), move.size(), out, room, written);
        },
        text);
    if (detail::is_refused(it)) {
        text = detail::explanation(ASM_FORM_STATE, state);
        if (text.empty()) text = detail::move_explanation(move);
    }
    detail::done(it, text);
    return text;
}

// Returns the one move [INSTR, ..] that does what the first and then the second do; throws `clash`, and code::large.
inline std::string compose_json(std::string_view first, std::string_view second) {
    std::string text;
    const code it = detail::text_of_call(
        [&](auto *out, auto room, auto *written) {
            return asm_compose(detail::bytes(first), first.size(), detail::bytes(second), second.size(), out, room, written);
        },
        text);
    if (detail::is_refused(it)) {
        text = detail::move_explanation(first);
        if (text.empty()) text = detail::move_explanation(second);
    }
    detail::done(it, text);
    return text;
}

// Returns where and why a text of the form is refused; empty if it isn't.
inline std::string explain(asm_form form, std::string_view text) { return detail::explanation(form, text); }

// The state of an abstract state machine, on which the agents of many threads fire moves without locks.
class storage {
  public:
    // Opens a storage with the state [PAIR, ..], for 1 to 1,048,576 moves.
    storage(std::string_view init, std::uint32_t capacity) : shared_(std::make_shared<detail::shared>()) {
        const code it{asm_open(detail::bytes(init), init.size(), capacity, shared_->storage.get())};
        if (detail::is_refused(it)) detail::fail(it, detail::explanation(ASM_FORM_STATE, init));
        detail::expect_capacity(it, capacity);
        detail::done(it);
    }

    // Opens a storage with these locations and values: storage({{"count", {}, 7}, {"account", {"anna"}, 0}}, 1000).
    storage(const std::vector<entry> &init, std::uint32_t capacity) : storage(detail::json_of(init), capacity) {}

    // Has agents that are made or checked out from now on record, or not, as agent::record does. The storages of `next` and
    // agent::go_on do as this one.
    void record(bool is_recording) {
        std::lock_guard<std::mutex> guard(own().lock);
        own().is_recording = is_recording;
    }

    // Makes an agent. A storage makes one of each number, 0 to 255.
    agent make_agent(std::uint32_t number) {
        auto seat = std::make_shared<detail::seat>(shared_, number);
        std::lock_guard<std::mutex> guard(own().lock);
        const code it{asm_agent(own().storage.get(), number, seat->get())};
        if (it == code::agents) detail::fail_range(it, "the agent's number", number, 0, 255);
        detail::done(it);
        seat->record(own().is_recording);
        return from_seat(std::move(seat));
    }

    // Checks out the agent with this number that was returned, with all that it had; code::no_agent if none was, or it was
    // checked out since. The journal of an earlier `close` is discarded.
    agent take(std::uint32_t number) {
        auto seat = std::make_shared<detail::seat>(shared_, number);
        std::lock_guard<std::mutex> guard(own().lock);
        detail::done(own().give_waiting());
        detail::done(asm_take(own().storage.get(), number, seat->get()));
        seat->record(own().is_recording);
        return from_seat(std::move(seat));
    }

    std::uint32_t moves() const {
        std::uint32_t moves = 0;
        std::lock_guard<std::mutex> guard(own().lock);
        detail::done(asm_moves(own().storage.get(), &moves));
        return moves;
    }

    // Returns the journal of the agents that were returned, as each is when it is destroyed.
    std::string close() {
        std::uint32_t number = 0;
        std::string text;
        std::lock_guard<std::mutex> guard(own().lock);
        detail::done(own().give_waiting());
        const code it{asm_close(own().storage.get(), &number)};
        if (it == code::missing) throw missing(number);
        detail::done(it);
        detail::done(detail::text_of_call(
            [&](auto *out, auto room, auto *written) { return asm_journal(own().storage.get(), out, room, written); }, text));
        return text;
    }

    // Opens a storage with the state after the moves of the closed journal; its agents and numbers start again.
    storage next(std::uint32_t capacity) {
        storage it;
        std::lock_guard<std::mutex> guard(own().lock);
        const code opened{asm_next(own().storage.get(), capacity, it.shared_->storage.get())};
        detail::expect_capacity(opened, capacity);
        detail::done(opened);
        it.shared_->is_recording = own().is_recording;
        return it;
    }

  private:
    friend class agent;
    detail::shared &own() const {
        if (!shared_) detail::fail(code::empty, {});
        return *shared_;
    }
    static agent from_seat(std::shared_ptr<detail::seat> seat) {
        agent it(std::move(seat));
        return it;
    }
    storage() : shared_(std::make_shared<detail::shared>()) {}
    std::shared_ptr<detail::shared> shared_;
};

inline storage agent::go_on(std::uint32_t capacity) {
    detail::done(catch_up());
    storage it;
    const code opened{asm_go_on(get(), capacity, it.shared_->storage.get())};
    detail::expect_capacity(opened, capacity);
    detail::done(opened);
    it.shared_->is_recording = seat_->storage_records();
    return it;
}

// Checks a run of any length as its bytes come, in pieces of any size: journals one after the other, the parts of the run. Each
// opens with the state after the one before it. It holds that state and one line. The first fault is reported at the line feed of
// its line, and again by each further call.
class auditor {
  public:
    // Reads the bytes, all of them with code::done; with any other code `taken` of them. `told` has the counts so far, or those
    // of
    // the fault. After code::memory the bytes that weren't taken may be passed again.
    [[nodiscard]] code try_feed(std::span<const std::uint8_t> bytes, std::size_t &taken, asm_audit_numbers &counts) noexcept {
        taken = 0;
        if (!slot_) return code::empty;
        if (fault_ == code::done) {
            const code it{asm_audit(slot_.get(), bytes.data(), bytes.size(), &taken, &counts)};
            if (it == code::done || it == code::memory) return it;
            fault_ = it;
            at_ = counts;
            if (it == code::long_line) at_.parts = complete_parts(); // which comes without numbers
        }
        counts = at_;
        return fault_;
    }
    // Reads the bytes; throws `audit_error` at the first fault; and std::bad_alloc, after which it isn't known how many bytes
    // were
    // taken.
    void feed(std::span<const std::uint8_t> bytes) {
        std::size_t taken = 0;
        asm_audit_numbers counts{};
        judge(try_feed(bytes, taken, counts), counts);
    }
    void feed(std::string_view bytes) { feed(std::span(detail::bytes(bytes), bytes.size())); }

    // Returns how many parts are complete, how many calls were judged right, and how many moves they fired, before a fault too.
    asm_audit_numbers counts() {
        if (!slot_) detail::fail(code::empty, {});
        std::size_t taken = 0;
        asm_audit_numbers numbers{};
        detail::done(asm_audit(slot_.get(), nullptr, 0, &taken, &numbers));
        return numbers;
    }
    // Returns the same of a run that ends here; throws `audit_error` if its last part or line isn't complete. More may be fed.
    asm_audit_numbers end() {
        asm_audit_numbers counts{};
        if (!slot_) detail::fail(code::empty, {});
        if (fault_ != code::done) judge(fault_, at_);
        const code it{asm_audited(slot_.get(), &counts)};
        judge(it == code::empty ? code::cut : it, counts);
        return counts;
    }
    // Return the state after the moves so far, and the same as [PAIR, ..]; code::no_part before a part has begun.
    std::vector<entry> state() { return detail::entries(state_json()); }
    std::string state_json() {
        if (!slot_) detail::fail(code::empty, {});
        std::string text;
        auto call = [&](auto *out, auto room, auto *written) { return asm_audit_state(slot_.get(), out, room, written); };
        const code it = detail::text_of_call(call, text);
        detail::done(it == code::empty ? code::no_part : it);
        return text;
    }

  private:
    std::uint64_t complete_parts() noexcept {
        std::size_t taken = 0;
        asm_audit_numbers counts{};
        return asm_audit(slot_.get(), nullptr, 0, &taken, &counts) == ASM_DONE ? counts.parts : 0;
    }
    static void judge(code it, const asm_audit_numbers &counts) {
        if (it == code::memory) throw std::bad_alloc();
        if (it != code::done) throw audit_error(it, counts);
    }
    detail::owned_slot<struct asm_audit> slot_;
    code fault_ = code::done;
    asm_audit_numbers at_{};
};

namespace detail {

// A descriptor of the system, which is closed with it.
class descriptor {
  public:
    explicit descriptor(int at = -1) noexcept : at_(at) {}
    descriptor(descriptor &&other) noexcept : at_(std::exchange(other.at_, -1)) {}
    descriptor &operator=(descriptor &&other) noexcept {
        std::swap(at_, other.at_);
        return *this;
    }
    ~descriptor() {
        if (at_ >= 0) ::close(at_);
    }
    int get() const noexcept { return at_; }

  private:
    int at_;
};

// Throws a std::system_error of the present errno unless the call was done.
inline void system_done(bool is_done, const std::string &what) {
    if (!is_done) throw std::system_error(errno, std::generic_category(), what);
}
inline descriptor opened(int folder, const std::string &name, int flags) {
    descriptor it(::openat(folder, name.c_str(), flags | O_CLOEXEC, 0600));
    system_done(it.get() >= 0, name);
    return it;
}
inline bool write_all(int file, std::string_view text) noexcept {
    while (!text.empty()) {
        const ssize_t written = ::write(file, text.data(), text.size());
        if (written < 0 && errno == EINTR) continue;
        if (written <= 0) return false;
        text.remove_prefix(static_cast<std::size_t>(written));
    }
    return true;
}

} // namespace detail

// What is saved of a run: the number of its oldest segment, how many segments there are with those that were dropped, how many
// moves they have, and the digest of the last one.
struct saved_run {
    std::uint64_t first = 0, segments = 0, moves = 0;
    std::string digest;
};

// A run in a folder, which one process has at a time: storages one after the other, each of which is saved as a segment. Agents
// play in `part()`. No crash loses what `saved()` reports, if the disk keeps what it reports as flushed. It is used in one thread
// at a time; the agents of a part are as those of any storage.
//
// A call of the system that fails throws a std::system_error. After a failed `flush` or `keep` nothing more is saved: they throw
// code::order; `resume` goes on with what is saved.
class run {
  public:
    // Makes a run with this opening state [PAIR, ..] in a folder without one; its parts have room for so many moves each. Throws
    // std::errc::file_exists if a run is there, and resource_unavailable_try_again if another process has the folder.
    static run open(const std::string &folder, std::string_view init, std::uint32_t moves = 100'000) {
        storage first(init, moves);
        run it(folder, moves, true);
        if (it.read_all() != 0) throw std::system_error(EEXIST, std::generic_category(), folder);
        it.save(first.close(), 0, 0);
        it.part_.emplace(first.next(moves));
        return it;
    }
    // Goes on with the run in the folder, each segment of which is read and audited. Throws `audit_error` with the number of the
    // segment that isn't the one that was saved (code::name, not_next, opening, previous, damaged or counts) or isn't legal, and
    // std::errc::no_such_file_or_directory if no run is there.
    static run resume(const std::string &folder, std::uint32_t moves = 100'000) {
        run it(folder, moves, false);
        if (it.read_all() == 0) throw std::system_error(ENOENT, std::generic_category(), folder);
        std::string state;
        detail::done(detail::text_of_call(
            [&](auto *out, auto room, auto *written) { return asm_run_state(it.slot_.get(), out, room, written); }, state));
        it.part_.emplace(state, moves);
        return it;
    }

    // Returns the storage in which agents play now.
    storage &part() {
        if (!slot_ || !part_) detail::fail(code::empty, {});
        return *part_;
    }
    // Saves what the agents of the part did, all of which must be destroyed, and goes on in the next part; nothing if they did
    // nothing. Throws `missing` if an agent that fired wasn't returned: then nothing was saved.
    saved_run flush() {
        std::string text = part().close();
        const auto lines = static_cast<std::uint64_t>(std::count(text.begin(), text.end(), '\n'));
        if (lines > 1) { // the first one is the header, and each other one an event
            save(text, part().moves(), lines - 1);
            part_.emplace(part().next(moves_));
        }
        return saved();
    }
    saved_run saved() const {
        asm_run_numbers numbers{};
        saved_run it;
        detail::done(detail::text_of_call(
            [&](auto *out, auto room, auto *written) { return asm_run_saved(slot_.get(), &numbers, out, room, written); },
            it.digest));
        it.first = numbers.first;
        it.segments = numbers.segments;
        it.moves = numbers.moves;
        return it;
    }
    // Drops the oldest segments, one after the other, until at most so many are left, and at least one.
    saved_run keep(std::uint64_t segments) {
        while (names_.size() > std::max<std::uint64_t>(segments, 1)) {
            std::uint64_t number = 0;
            detail::done(code{asm_run_drop(slot_.get(), &number)});
            work(names_.front(), {});
            names_.pop_front();
        }
        return saved();
    }

  private:
    run(const std::string &folder, std::uint32_t moves, bool makes) : moves_(moves) {
        if (makes) detail::system_done(::mkdir(folder.c_str(), 0700) == 0 || errno == EEXIST, folder);
        folder_ = detail::opened(AT_FDCWD, folder, O_RDONLY | O_DIRECTORY);
        lock_ = detail::opened(folder_.get(), "lock", O_RDWR | O_CREAT | O_NOFOLLOW);
        detail::system_done(::flock(lock_.get(), LOCK_EX | LOCK_NB) == 0, folder);
        detail::done(code{asm_run_open(slot_.get())});
        detail::system_done(::fsync(folder_.get()) == 0, folder);
        detail::system_done(::fsync(detail::opened(folder_.get(), "..", O_RDONLY | O_DIRECTORY).get()) == 0, folder);
        for (const auto &it : std::filesystem::directory_iterator(folder))
            if (it.path().extension() == ".journal") names_.push_back(it.path().filename().string());
        std::sort(names_.begin(), names_.end());
    }

    // Reads the segments, and returns how many there are.
    std::size_t read_all() {
        std::uint64_t number = 0;
        for (const std::string &name : names_) {
            const detail::descriptor file = detail::opened(folder_.get(), name, O_RDONLY | O_NOFOLLOW);
            struct stat status {};
            detail::system_done(::fstat(file.get(), &status) == 0, name);
            asm_segment found{};
            const code it{asm_run_name(slot_.get(), detail::bytes(name), name.size(), static_cast<std::uint64_t>(status.st_size), &found)};
            judge(it, number, {});
            number = found.number;
            read(file.get(), name);
            asm_audit_numbers counts{};
            judge(code{asm_run_end(slot_.get(), &counts)}, number, counts);
            ++number;
        }
        detail::done(code{asm_run_read(slot_.get())});
        return names_.size();
    }
    void read(int file, const std::string &name) {
        std::vector<std::uint8_t> piece(1 << 16);
        for (;;) {
            const ssize_t count = ::read(file, piece.data(), piece.size());
            if (count == 0) return;
            if (count < 0 && errno == EINTR) continue;
            detail::system_done(count > 0, name);
            detail::done(code{asm_run_text(slot_.get(), piece.data(), static_cast<std::size_t>(count))});
        }
    }
    // Throws for what is wrong with the segment of this number.
    static void judge(code it, std::uint64_t number, asm_audit_numbers counts) {
        if (it == code::memory) throw std::bad_alloc();
        counts.parts = number;
        if (it != code::done) throw audit_error(it, counts);
    }

    void save(const std::string &text, std::uint64_t moves, std::uint64_t events) {
        std::string name;
        detail::done(detail::text_of_call(
            [&](auto *out, auto room, auto *written) {
                return asm_run_hand(slot_.get(), moves, events, detail::bytes(text), text.size(), out, room, written);
            },
            name));
        names_.push_back(name);
        work(name, text);
    }
    // Makes each call of the system that the run asks for.
    void work(const std::string &name, std::string_view text) {
        std::int32_t request = 0;
        for (;;) {
            detail::done(code{asm_run_request(slot_.get(), &request)});
            if (request == ASM_REST) return;
            if (!make(request, name, text)) {
                const int why = errno;
                detail::done(code{asm_run_failed(slot_.get())});
                ::unlinkat(folder_.get(), "new", 0);
                throw std::system_error(why, std::generic_category(), name);
            }
            detail::done(code{asm_run_done(slot_.get())});
        }
    }
    bool make(std::int32_t request, const std::string &name, std::string_view text) noexcept {
        const int folder = folder_.get();
        switch (request) {
        case ASM_REMOVE_NEW: return ::unlinkat(folder, "new", 0) == 0 || errno == ENOENT;
        case ASM_CREATE_NEW:
            file_ = detail::descriptor(::openat(folder, "new", O_WRONLY | O_CREAT | O_EXCL | O_CLOEXEC, 0600));
            return file_.get() >= 0;
        case ASM_WRITE_NEW: return detail::write_all(file_.get(), text);
        case ASM_FLUSH_NEW: return ::fsync(file_.get()) == 0;
        case ASM_RENAME_NEW: return ::renameat(folder, "new", folder, name.c_str()) == 0;
        case ASM_REMOVE_OLDEST: return ::unlinkat(folder, name.c_str(), 0) == 0;
        default: return ::fsync(folder) == 0;
        }
    }

    std::uint32_t moves_;
    detail::descriptor folder_, lock_, file_;
    detail::owned_slot<struct asm_run> slot_;
    std::deque<std::string> names_;
    std::optional<storage> part_;
};

} // namespace folugben

#endif
