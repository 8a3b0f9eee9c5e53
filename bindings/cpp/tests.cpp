// What the classes of folugben.hpp add to the calls of folugben.h.
#include "wanted.hpp"

#include <chrono>
#include <cstdint>
#include <cstdio>
#include <memory>
#include <new>
#include <ranges>
#include <string>
#include <type_traits>
#include <utility>
#include <vector>

namespace {

static_assert(!std::is_copy_constructible_v<folugben::agent> && std::is_nothrow_move_constructible_v<folugben::agent>);
static_assert(!std::is_copy_constructible_v<folugben::step> && std::is_move_constructible_v<folugben::step>);
static_assert(!std::is_copy_constructible_v<folugben::auditor> && std::is_move_constructible_v<folugben::auditor>);
static_assert(noexcept(std::declval<folugben::step &>().try_push(std::declval<const folugben::instructions &>(), std::declval<std::string &>())));
static_assert(noexcept(std::declval<folugben::step &>().try_push(ASM_PUT, std::declval<const folugben::location &>(), std::declval<const folugben::operand &>(), 0, std::declval<std::string &>())));
static_assert(noexcept(std::declval<folugben::step &>().try_extend(std::declval<const folugben::instructions &>(), std::declval<std::string &>())));
static_assert(!std::is_convertible_v<std::uint64_t, folugben::element> && !std::is_convertible_v<double, folugben::element>);
static_assert(!std::is_convertible_v<std::uint64_t, folugben::operand> && !std::is_convertible_v<double, folugben::operand>);

void values_are_read_by_their_kinds() {
    folugben::storage storage("[]", 10);
    folugben::agent agent = storage.make_agent(0);
    folugben::location at("x");
    folugben::instructions move;
    agent.play([&](folugben::step &step) { step.push(move.put(at, true)); });
    agent.follow();
    WANTED(agent.peek(at).is_true() && agent.peek(at).kind() == ASM_KIND_BOOL);
    agent.play([&](folugben::step &step) { step.push(move.clear().put(at, nullptr)); });
    agent.follow();
    WANTED(agent.peek(at).is_undef() && agent.state_json() == "[]");
    std::string longer(5000, 'x');
    agent.play([&](folugben::step &step) { step.push(move.clear().put(at, longer)); });
    agent.follow();
    WANTED(agent.peek(at).text() == longer && agent.peek(at) == agent.peek(at));
}

void lists_sets_and_bags_are_operands() {
    folugben::storage storage(R"([[["s"],{"set":[1]}]])", 10);
    folugben::agent agent = storage.make_agent(0);
    folugben::location at("x"), set("s");
    folugben::step step = agent.begin();
    folugben::instructions move;
    step.push(move.put(at, folugben::operand::of_json(ASM_KIND_BAG, R"({"bag":[["e",2]]})"))
                  .add(set, folugben::operand::of_json(ASM_KIND_LIST, R"({"list":[true]})")));
    WANTED(step.get(at).text() == R"({"bag":[["e",2]]})" && step.get(set).text() == R"({"set":[1,{"list":[true]}]})");
    // What was returned is put unchanged.
    for (const char *text : {"null", "true", "-7", R"("a text")", R"({"list":[1]})", R"({"set":[]})", R"({"bag":[[1,2]]})"}) {
        step.push_json(std::string(R"([["put",["x"],)") + text + "]]");
        folugben::value value = step.get(at);
        step.push(move.clear().put(at, 0));
        step.push(move.clear().put(at, value));
        WANTED(step.get(at) == value && step.get_json(R"([["x"]])") == std::string(R"({"number":0,"values":[)") + text + "]}");
    }
    folugben::error nested = REFUSED(
        folugben::error, move.put(at, folugben::operand::of_json(ASM_KIND_SET, R"({"set":[{"set":[]}]})")));
    WANTED(nested.code() == code::shape && nested.text() == "instruction 1: a set can't hold a set");
    WANTED(REFUSED(folugben::error, move.put(at, folugben::operand::of_json(ASM_KIND_LIST, "{"))).code() == code::not_json);
    WANTED(REFUSED(folugben::error, move.put(at, "\xff")).code() == code::shape && move.size() == 1);
}

void numbers_are_numbers() {
    using folugben::element;
    folugben::storage storage({{"count", {}, 7}, {"account", {"anna", 1}, "none"}, {"s", {}, folugben::set{1, "a"}},
                               {"b", {}, folugben::bag{{"x", 2}}}, {"l", {}, folugben::list{1, nullptr}}, {"t", {}, true}},
                              10);
    folugben::agent agent = storage.make_agent(0);
    WANTED(agent.state_json() == R"([[["account","anna",1],"none"],[["b"],{"bag":[["x",2]]}],[["count"],7],)"
                                 R"([["l"],{"list":[1,null]}],[["s"],{"set":[1,"a"]}],[["t"],true]])");
    folugben::step step = agent.begin();
    for (const folugben::entry &it : step.scan("account")) {
        const folugben::value there = step.get(it.at());
        WANTED(there == it.value && there.number_or(3) == 3);
        WANTED(REFUSED(folugben::error, (void)there.number()).code() == code::shape);
    }
    WANTED(step.get(folugben::location("count")).number() == 7);
    WANTED(std::string(REFUSED(folugben::error, (void)step.get(folugben::location("none")).number()).what()) == "no number is there");
    WANTED(REFUSED(folugben::error, (void)element(true).number()).code() == code::shape && element(2).number_or(3) == 2);
    WANTED(REFUSED(folugben::error, folugben::storage({{"no name", {}, 1}}, 10)).code() == code::shape);
}

void elements_are_in_the_order_of_the_storage() {
    using folugben::element;
    using folugben::list;
    const std::vector<element> ascending = {nullptr, false, true, INT64_MIN, -1, 0, INT64_MAX, "", "a", "b", "\xc3\xa4",
                                            list{}, list{"z"}, list{list{}}, list{nullptr, 1}, list{"a", 0}};
    for (std::size_t i = 0; i < ascending.size(); ++i)
        for (std::size_t k = 0; k < ascending.size(); ++k) {
            WANTED((ascending[i] < ascending[k]) == (i < k) && (ascending[i] == ascending[k]) == (i == k));
        }
    WANTED(element(7).number() == 7 && element("x").number_or(9) == 9 && element(7).text().empty() && element().is_undef());
    WANTED(element(list{1, "a"}).items()[1].text() == "a" && element(true).is_true() && !element(1).is_true());
}

void sets_bags_and_scans_are_read() {
    folugben::storage storage("[]", 10);
    folugben::agent agent = storage.make_agent(0);
    const std::string special = "\"\\/\b\f\n\r\t\x01\x1f\x7f \xc3\xa4\xf0\x9f\x8c\x8d";
    const folugben::list list = {nullptr, true, -7, special, folugben::list{folugben::list{}}};
    const folugben::set set(list.begin(), list.end());
    const folugben::bag bag = {{special, 1}, {list, UINT32_MAX}};
    const folugben::location at_list("it", "list"), at_set("it", "set"), at_bag("it", "bag", special, -1, true, nullptr), at_text("it", list);
    auto played = agent.play([&](folugben::step &step) {
        folugben::instructions move;
        step.push(move.put(at_list, list).put(at_set, set).put(at_bag, bag).put(at_text, special));
        step.push(folugben::instructions().add(at_set, 5).bag_add(at_bag, "e", 3));
        return step.get(at_bag).as_bag();
    });
    WANTED(played.number == 1 && played.retries == 0 && played.result.size() == 3 && played.result.at("e") == 3);
    WANTED(agent.follow() == 1 && agent.peek(at_list).as_element() == folugben::element(list) && agent.peek(at_text).text() == special);
    folugben::set more = set;
    more.insert(5);
    WANTED(agent.peek(at_set).as_set() == more && agent.peek(at_bag).as_bag().at(list) == UINT32_MAX);
    for (auto call : {+[](const folugben::value &it) { (void)it.as_set(); }, +[](const folugben::value &it) { (void)it.as_bag(); }})
        WANTED(REFUSED(folugben::error, call(agent.peek(at_text))).code() == code::shape);
    WANTED(REFUSED(folugben::error, (void)agent.peek(at_set).as_element()).code() == code::shape);

    std::uint32_t number = 0;
    const std::vector<folugben::entry> all = agent.scan("it", number);
    WANTED(all.size() == 4 && number == 1 && all.size() == agent.state().size() && agent.scan("none", number).empty());
    folugben::step step = agent.begin();
    for (const folugben::entry &it : step.scan("it")) {
        // The returned text of each leads there again, and is put unchanged.
        const folugben::location at(it.name, it.args);
        WANTED(it.name == "it" && agent.peek(at) == it.value);
        step.extend(folugben::instructions().put(at, it.value));
    }
    WANTED(step.commit() == 2 && agent.follow() == 2 && agent.state_json() == storage.make_agent(1).play([](folugben::step &it) {
        return it.scan_json("it");
    }).result);
}

void what_is_no_set_and_no_element_is_said() {
    folugben::storage storage(R"([[["n"],7],[["s"],{"set":[1]}]])", 10);
    folugben::agent agent = storage.make_agent(0);
    folugben::location s("s"), n("n");
    folugben::step step = agent.begin();
    std::uint32_t count = 9;
    std::uint64_t size = 9;
    bool any = true;
    WANTED(step.try_count_of(n, 1, count) == code::shape && count == 0 && step.try_size(n, size) == code::shape && size == 0);
    WANTED(std::string(REFUSED(folugben::error, step.has(n, 1)).what()).find("the value is no set and no bag") != std::string::npos);
    const auto text = REFUSED(folugben::error, step.has(s, "\xc3"));
    WANTED(text.code() == code::shape && std::string(text.what()).find("the text isn't UTF-8") != std::string::npos);
    WANTED(REFUSED(folugben::error, step.has(s, folugben::set{1})).code() == code::operand);
    WANTED(step.try_any("\xff", any) == code::shape && !any && step.try_count("\xff", size) == code::shape && size == 0);
    WANTED(REFUSED(folugben::error, step.any("\xff")).code() == code::shape);
    WANTED(agent.follow() == 0 && step.try_any("s", any) == code::done && any);
}

// A loop by hand begins again at a conflict, and at nothing else.
void conflicts_are_played_again() {
    folugben::storage storage(R"([[["bag"],{"bag":[["e",1]]}]])", 100);
    folugben::agent one = storage.make_agent(0), other = storage.make_agent(1);
    const folugben::location bag("bag"), free("free");
    int conflicts = 0;
    for (bool is_done = false; !is_done;) {
        folugben::step step = one.begin();
        const bool is_there = step.get(bag).as_bag().contains("e");
        step.push(folugben::instructions().put(free, !is_there));
        if (conflicts == 0) other.play([&](folugben::step &it) { it.push(folugben::instructions().bag_remove(bag, "e", 1)); });
        try {
            WANTED(step.commit() == 2);
            is_done = true;
        } catch (const folugben::conflict &it) {
            WANTED(it.code() == code::stale && ++conflicts == 1);
        }
    }
    other.play([&](folugben::step &it) { it.push(folugben::instructions().bag_add(bag, "e", 1)); });
    folugben::step short_of = one.begin();
    short_of.push(folugben::instructions().bag_remove(bag, "e", 1));
    other.play([&](folugben::step &it) { it.push(folugben::instructions().bag_remove(bag, "e", 1)); });
    WANTED(REFUSED(folugben::conflict, short_of.commit()).code() == code::clash);
    int tries = 0;
    REFUSED(folugben::clash, one.play([&](folugben::step &it) {
        ++tries;
        it.push(folugben::instructions().bag_remove(bag, "e", 1));
    }));
    WANTED(tries == 1);
    std::string text;
    folugben::step step = one.begin();
    WANTED(step.try_push(folugben::instructions().bag_remove(bag, "e", 1), text) == code::clash);
    WANTED(text == R"({"clash":[["bag"],"Short"]})");
}

// What a rule returns is handed on, moved and not copied.
void plays_return_what_their_rules_do() {
    folugben::storage storage(COUNT, 10);
    folugben::agent agent = storage.make_agent(0), other = storage.make_agent(1);
    const folugben::location count("count");
    bool is_first = true;
    auto played = agent.play([&](folugben::step &step) {
        auto it = std::make_unique<std::int64_t>(step.get(count).number());
        if (std::exchange(is_first, false)) other.play([&](folugben::step &by) { by.push(folugben::instructions().inc(count, 1)); });
        step.push(folugben::instructions().put(count, *it * 2));
        return it;
    });
    WANTED(played.number == 2 && played.retries == 1 && *played.result == 8);
    folugben::played<void> none = agent.play(empty_move);
    WANTED(none.number == 3 && none.retries == 0);
    int referent = 0;
    auto by_reference = agent.play([&](folugben::step &) -> int & { return referent; });
    WANTED(&by_reference.result == &referent);
}

// A rule that commits its step ends the play with that move.
void rules_may_commit() {
    folugben::storage storage(COUNT, 10);
    folugben::agent agent = storage.make_agent(0), other = storage.make_agent(1);
    const folugben::location count("count");
    auto raise = [&](folugben::step &step) {
        step.push(folugben::instructions().inc(count, 1));
        return step.commit();
    };
    auto played = agent.play(raise);
    WANTED(played.has_fired() && played.number == 1 && played.result == 1 && agent.won() == 1);
    auto tried = agent.play([&](folugben::step &step) {
        const auto next = step.get(count).number() + 1;
        if (other.won() == 0) other.play(raise);
        step.push(folugben::instructions().put(count, next));
        return step.try_commit().code;
    });
    // The first commit was in vain, and so was that of the play.
    WANTED(tried.number == 3 && tried.retries == 1 && tried.result == code::done);
    folugben::step kept = agent.begin();
    WANTED(REFUSED(folugben::error, agent.play([&](folugben::step &step) { kept = std::move(step); })).code() == code::empty);
    WANTED(agent.follow() == 3 && agent.peek(count).number() == 10);
}

void moves_are_united() {
    folugben::location n("n");
    folugben::instructions one, none;
    one.inc(n, 2).put(folugben::location("x"), "a");
    WANTED((none |= one).size() == 2 && one.size() == 2 && one.try_unite(one) == code::empty && one.size() == 2);
    folugben::instructions moved = std::move(none);
    WANTED(one.try_unite(none) == code::empty && none.try_unite(one) == code::empty);
    WANTED(moved.try_unite(folugben::instructions()) == code::done && moved.size() == 2);
    for (int i = 2; i < 4095; ++i) moved.inc(n, 1);
    WANTED(REFUSED(folugben::error, moved |= one).code() == code::long_move && moved.size() == 4095);
}

static_assert(std::ranges::input_range<folugben::instructions>);

void moves_are_ranges() {
    folugben::location x("x"), f("f", 1, "a", folugben::list{true}), s("s");
    folugben::instructions move;
    WANTED(move.begin() == move.end());
    move.put(f, folugben::bag{{"e", 2}}).bag_remove(x, "\"\\", UINT32_MAX).inc(s, -1).put(x, nullptr).put(x, "");
    std::vector<asm_verb> verbs;
    for (const folugben::instruction &it : move) verbs.push_back(it.verb);
    WANTED(verbs == std::vector<asm_verb>({ASM_PUT, ASM_BAGREMOVE, ASM_INC, ASM_PUT, ASM_PUT}));
    WANTED(move[0].name == "f" && move[0].args == folugben::list({1, "a", folugben::list{true}}) && move[0].amount == 0);
    WANTED(move[0].value.as_bag() == folugben::bag{{"e", 2}} && move[1].value.text() == "\"\\" && move[1].amount == UINT32_MAX);
    WANTED(move[2].value.number() == -1 && move[3].value.is_undef() && move[4].value.kind() == ASM_KIND_TEXT && move[4].args.empty());
    WANTED(REFUSED(folugben::error, move[5]).code() == code::no_instruction);
    folugben::storage storage("[]", 10);
    folugben::agent agent = storage.make_agent(0);
    folugben::step step = agent.begin();
    const folugben::instruction first = move[0];
    step.push(folugben::instructions().put(first.at(), first.value));
    WANTED(step.get(f).as_bag() == folugben::bag{{"e", 2}});
}

void steps_wait() {
    using namespace std::chrono_literals;
    folugben::storage storage(R"([[["x"],1]])", 10);
    folugben::agent one = storage.make_agent(0), other = storage.make_agent(1);
    folugben::location x("x"), y("y");
    folugben::step step = one.begin();
    WANTED(step.get(x).number() == 1 && !step.wait(1ms));
    other.play([&](folugben::step &it) { it.push(folugben::instructions().put(y, 1)); });
    step.stands();
    WANTED(!step.wait(0s));
    other.play([&](folugben::step &it) { it.push(folugben::instructions().put(x, 1)); });
    WANTED(step.wait(1h) && REFUSED(folugben::conflict, step.stands()).text() == R"({"stale":["x"]})");
}

void plays_end_with_their_patience() {
    using namespace std::chrono_literals;
    folugben::storage storage(COUNT, 100);
    folugben::agent agent = storage.make_agent(0), other = storage.make_agent(1);
    folugben::location count("count");
    const auto loses = [&](folugben::step &step) {
        step.push(folugben::instructions().put(count, step.get(count).number()));
        other.play([&](folugben::step &it) { it.push(folugben::instructions().inc(count, 1)); });
    };
    WANTED(REFUSED(folugben::conflict, agent.play(loses, {.tries = 3})).text() == R"({"stale":["count"]})");
    WANTED(storage.moves() == 3);
    WANTED(REFUSED(folugben::conflict, agent.play(loses, {.timeout = 0ns})).code() == code::stale && storage.moves() == 4);
    WANTED(agent.play([&](folugben::step &it) { it.push(folugben::instructions().inc(count, 1)); }, {.tries = 1}).retries == 0);
    // A rule that pushes nothing fires nothing, and says so; a commit is done as it is asked for.
    const auto seen = agent.play([&](folugben::step &it) { return it.get(count).number(); });
    WANTED(!seen.has_fired() && seen.number == 0 && seen.result == 12 && storage.moves() == 5);
    WANTED(agent.play([](folugben::step &) {}).retries == 0 && agent.play(empty_move).has_fired());
    WANTED(agent.begin().try_commit().number == 7);
    folugben::step stale = agent.begin();
    stale.get(count);
    stale.push_json(R"([["put",["x"],1]])");
    other.play([&](folugben::step &it) { it.push(folugben::instructions().inc(count, 1)); });
    const folugben::outcome outcome = stale.try_commit();
    WANTED(!outcome && outcome.is_conflict() && outcome.code == code::stale && outcome.number == 0);
}

void refusals_name_the_limit_and_range() {
    folugben::storage storage("[]", 10);
    folugben::agent agent = storage.make_agent(0);
    auto said = [](auto call) { return refused<folugben::error>(call, __LINE__).text(); };
    WANTED(said([] { folugben::storage("[]", 0); }) == "the capacity is 0, and must be 1 to 1048576");
    WANTED(said([&] { storage.make_agent(256); }) == "the agent's number is 256, and must be 0 to 255");
    WANTED(said([&] { folugben::instructions().bag_add(folugben::location("b"), 1, 0); }) == "the amount is 0, and must be 1 to 4294967295");
    WANTED(said([&] { agent.fire_json(R"({"fire":[],"reads":[[["x"],3]]})"); }) == "a number is above the 0 moves that the agent has seen");
    std::string many = "[[\"x\"]";
    for (int i = 0; i < 256; ++i) many += ",[\"x\"," + std::to_string(i) + "]";
    const std::string limit = REFUSED(folugben::error, agent.read_json(many + "]")).what();
    WANTED(limit == folugben::meaning(code::many) && limit.find("256") != std::string::npos);
    WANTED(REFUSED(folugben::error, agent.begin().get_json(many + "]")).what() == limit);
    folugben::list nested;
    for (int i = 0; i < 8; ++i) nested = folugben::list{nested};
    WANTED(said([&] { folugben::location("f", "{\"list\"", nested); }) == "lists nest at most 8 deep");
    for (int i = 0; i < 100; ++i) nested = folugben::list{nested};
    WANTED(said([&] { folugben::instructions().put(folugben::location("f"), nested); }) == "lists nest at most 8 deep");
}

void refusals_name_the_fault() {
    WANTED(REFUSED(folugben::error, folugben::storage("[]", 0)).code() == code::capacity);
    WANTED(!REFUSED(folugben::error, folugben::storage("[", 1)).text().empty());
    WANTED(!REFUSED(folugben::error, folugben::location("no name")).text().empty());
    folugben::storage storage(COUNT, 1);
    folugben::agent agent = storage.make_agent(3);
    WANTED(REFUSED(folugben::error, storage.make_agent(3)).code() == code::number);
    WANTED(!REFUSED(folugben::error, agent.begin().push_json("[1]")).text().empty());
    folugben::storage elsewhere(COUNT, 1);
    folugben::agent foreign = elsewhere.make_agent(0);
    WANTED(REFUSED(folugben::error, agent.learn(foreign)).code() == code::other);
    agent.play(empty_move);
    REFUSED(folugben::full, agent.play(empty_move));
    WANTED(REFUSED(folugben::conflict, throw folugben::conflict(code::busy, "")).code() == code::busy);
    WANTED(std::string(folugben::error(code::full, "").what()) == folugben::meaning(code::full));
    folugben::agent moved = std::move(agent);
    WANTED(std::string(REFUSED(folugben::error, agent.follow()).what()) == "the object was moved from, returned to its storage, or is over");
    const folugben::location at("x");
    WANTED(std::string(REFUSED(folugben::error, folugben::instructions().put(at, "a\xff")).what()) == "the text isn't UTF-8");
    WANTED(std::string(REFUSED(folugben::error, folugben::storage(COUNT, 0)).what()) == "the capacity is 0, and must be 1 to 1048576");
}

} // namespace

int main() {
    values_are_read_by_their_kinds();
    lists_sets_and_bags_are_operands();
    numbers_are_numbers();
    elements_are_in_the_order_of_the_storage();
    sets_bags_and_scans_are_read();
    what_is_no_set_and_no_element_is_said();
    conflicts_are_played_again();
    plays_return_what_their_rules_do();
    rules_may_commit();
    moves_are_united();
    moves_are_ranges();
    steps_wait();
    plays_end_with_their_patience();
    refusals_name_the_limit_and_range();
    refusals_name_the_fault();
    std::puts("passed");
}
