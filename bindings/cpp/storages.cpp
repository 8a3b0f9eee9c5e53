// Storages and their agents, audits, and objects that were moved from.
#include "wanted.hpp"

#include <cstdint>
#include <cstdio>
#include <string>
#include <thread>
#include <utility>
#include <vector>

namespace {

void destroyed_agents_are_returned() {
    folugben::storage storage(COUNT, 10);
    {
        folugben::agent agent = storage.make_agent(0);
        agent.play(empty_move);
        WANTED(REFUSED(folugben::missing, storage.close()).number() == 1);
        folugben::agent moved = std::move(agent);
        moved.play(empty_move);
        moved = storage.make_agent(1);
        moved.play(empty_move);
    }
    auto verdict = folugben::check(storage.close());
    WANTED(verdict.is_legal && verdict.calls == 3 && verdict.moves == 3);
    folugben::storage next = storage.next(5);
    WANTED(next.moves() == 0 && storage.moves() == 3);
    folugben::agent abandoned = storage.make_agent(2);
    abandoned.play(empty_move);
    abandoned.abandon();
    WANTED(REFUSED(folugben::missing, storage.close()).number() == 4);
}

// Two parts: 2 calls and 2 moves, and 1 call without a move.
std::string two_parts() {
    folugben::storage storage(COUNT, 2);
    auto fill = [&] {
        folugben::agent agent = storage.make_agent(0);
        for (int i = 0; i < 2; ++i) agent.play([](folugben::step &step) { step.push_json(R"([["inc",["count"],1]])"); });
        agent.follow();
        return agent.go_on(5);
    };
    folugben::storage next = fill();
    next.make_agent(0).read_json(R"([["count"]])");
    return storage.close() + next.close();
}

void runs_are_audited_as_their_bytes_come() {
    const std::string run = two_parts();
    folugben::auditor auditor;
    WANTED(REFUSED(folugben::audit_error, auditor.end()).code() == code::cut);
    WANTED(REFUSED(folugben::error, auditor.state_json()).code() == code::no_part && auditor.counts().calls == 0);
    std::uint64_t lines = 0;
    for (char byte : run) {
        auditor.feed(std::string_view(&byte, 1));
        lines += byte == '\n';
        WANTED(auditor.counts().parts == (lines < 3 ? 0u : lines < 5 ? 1u : 2u));
    }
    asm_audit_numbers counts = auditor.end();
    WANTED(counts.parts == 2 && counts.calls == 3 && counts.moves == 2 && auditor.state_json() == R"([[["count"],9]])");
    auditor.feed("\"");
    WANTED(REFUSED(folugben::audit_error, auditor.end()).code() == code::not_json);

    std::vector<std::uint8_t> bytes(run.begin(), run.end());
    folugben::auditor at_once;
    at_once.feed(bytes);
    WANTED(at_once.end().parts == 2);
    folugben::auditor moved = std::move(at_once);
    WANTED(moved.end().calls == 3);
}

void the_first_fault_of_a_run_is_reported_with_its_place() {
    const std::string run = two_parts();
    auto with = [&](const std::string &from, const char *to) {
        return std::string(run).replace(run.find(from), from.size(), to);
    };
    auto fault = [](const std::string &of) {
        folugben::auditor auditor;
        auto error = REFUSED(folugben::audit_error, { auditor.feed(of); auditor.end(); });
        WANTED(REFUSED(folugben::audit_error, auditor.feed("\n")).code() == error.code());
        WANTED(REFUSED(folugben::audit_error, auditor.end()).part() == error.part());
        return error;
    };
    auto illegal = fault(with("\"fired\":2", "\"fired\":3"));
    WANTED(illegal.code() == code::illegal && illegal.part() == 0 && illegal.call() == 1 && illegal.line() == 0);
    WANTED(std::string(illegal.text()) == "part 0 call 1");
    auto shape = fault(with("\"read\"", "\"reed\""));
    WANTED(shape.code() == code::shape && shape.part() == 1 && shape.line() == 2 && shape.text() == "part 1 line 2");
    auto separate = fault(run + run);
    WANTED(separate.code() == code::apart && separate.part() == 2 && separate.text() == "part 2");
    auto spaces = fault(run + std::string((1 << 24) + 1, ' '));
    WANTED(spaces.code() == code::not_json && spaces.part() == 2 && spaces.line() == 1);
    WANTED(!folugben::meaning(code::apart).empty() && folugben::meaning(code::apart) != folugben::meaning(code{99}));

    folugben::auditor auditor;
    std::vector<std::uint8_t> bytes(run.begin(), run.end());
    bytes.insert(bytes.end(), {'[', ']', '\n', '\n'});
    std::size_t taken = 0;
    asm_audit_numbers counts{};
    WANTED(auditor.try_feed(bytes, taken, counts) == code::shape && taken == run.size() + 2 && counts.parts == 2 && counts.calls == 1);
    WANTED(auditor.try_feed({}, taken, counts) == code::shape && taken == 0 && auditor.counts().calls == 3);
}

// A step goes on with its agent's slot, wherever the agent is.
void steps_stay_valid_when_their_agents_are_moved() {
    folugben::storage storage(COUNT, 10), other(R"([[["count"],100]])", 10);
    folugben::location count("count");
    const std::string up = R"([["inc",["count"],1]])";
    std::vector<folugben::agent> agents;
    agents.push_back(storage.make_agent(0));
    folugben::step grown = agents[0].begin();
    for (std::uint32_t i = 1; i < 50; ++i) agents.push_back(storage.make_agent(i));
    grown.push_json(up);
    WANTED(grown.get(count).number() == 8 && grown.commit() == 1);

    folugben::agent stranger = other.make_agent(0);
    folugben::step swapped = agents[0].begin();
    std::swap(agents[0], stranger);
    swapped.push_json(up);
    WANTED(swapped.get(count).number() == 9 && swapped.commit() == 2 && other.moves() == 0 && storage.moves() == 2);
    WANTED(agents[0].try_begin(swapped) == code::done && swapped.get(count).number() == 100);

    folugben::step late = stranger.begin();
    late.push_json(up);
    { folugben::agent ends = std::move(stranger); }
    WANTED(late.try_commit().code == code::empty && REFUSED(folugben::error, late.get(count)).code() == code::empty);
    WANTED(REFUSED(folugben::error, late.commit()).code() == code::empty && storage.moves() == 2);
    agents.clear();
    WANTED(folugben::check(storage.close()).moves == 2);
}

// What was moved from refuses each call, and may be assigned to.
void moved_objects_are_empty() {
    auto is_empty = [](auto call) { WANTED(refused<folugben::error>(call, __LINE__).code() == code::empty); };
    folugben::storage storage(COUNT, 10), next(COUNT, 5), released = std::move(next);
    is_empty([&] { next.make_agent(0); });
    is_empty([&] { next.take(0); });
    is_empty([&] { next.moves(); });
    is_empty([&] { next.close(); });
    is_empty([&] { next.next(5); });

    folugben::agent agent = storage.make_agent(0), left = std::move(agent);
    folugben::location count("count"), other = std::move(count);
    is_empty([&] { agent.begin(); });
    is_empty([&] { agent.play(empty_move); });
    is_empty([&] { agent.follow(); });
    is_empty([&] { agent.peek(other); });
    is_empty([&] { agent.state_json(); });
    is_empty([&] { agent.read_json(R"([["count"]])"); });
    is_empty([&] { agent.fire_json(R"({"fire":[],"reads":[]})"); });
    is_empty([&] { agent.answer(); });
    is_empty([&] { agent.go_on(5); });
    is_empty([&] { left.peek(count); });
    agent.abandon();
    WANTED(agent.seen() == 0 && agent.won() == 0 && agent.misses() == 0);
    WANTED(REFUSED(folugben::error, left.learn(agent)).code() == code::other);

    folugben::step step = left.begin(), moved = std::move(step);
    folugben::instructions move, full;
    full.put(other, 1);
    folugben::instructions owner = std::move(full);
    is_empty([&] { step.get(other); });
    is_empty([&] { step.push(owner); });
    is_empty([&] { step.pop(); });
    is_empty([&] { step.offer_json(); });
    is_empty([&] { step.commit(); });
    WANTED(step.depth() == 0 && left.try_begin(step) == code::empty);
    is_empty([&] { full.put(other, 2); });
    is_empty([&] { move.put(count, 1); });
    moved.push(owner);
    WANTED(moved.try_pop_move(full) == code::empty && moved.depth() == 1);
    step = left.begin();
    full = moved.pop_move();
    step.push(full);
    WANTED(step.commit() == 1);

    folugben::auditor auditor, last = std::move(auditor);
    is_empty([&] { auditor.feed("{"); });
    is_empty([&] { auditor.counts(); });
    is_empty([&] { auditor.end(); });
    is_empty([&] { auditor.state_json(); });
}

void threads_take_agents() {
    folugben::storage storage(R"([[["count"],0]])", 10000);
    std::vector<std::thread> threads;
    for (std::uint32_t i = 0; i < 4; ++i)
        threads.emplace_back(
            [](folugben::agent agent) {
                folugben::location count("count");
                for (int k = 0; k < 200; ++k)
                    agent.play([&](folugben::step &step) {
                        step.push(folugben::instructions().put(count, step.get(count).number() + 1));
                    });
            },
            storage.make_agent(i));
    for (auto &it : threads) it.join();
    folugben::agent reader = storage.make_agent(4);
    WANTED(reader.follow() == 800 && reader.peek(folugben::location("count")).number() == 800);
}

using folugben::detail::within;

// The lines of a journal that begin so.
std::vector<std::string> lines_of(const std::string &journal, const std::string &begin) {
    std::vector<std::string> lines;
    for (std::size_t at = 0, end; (end = journal.find('\n', at)) != std::string::npos; at = end + 1)
        if (journal.compare(at, begin.size(), begin) == 0) lines.push_back(journal.substr(at, end - at));
    return lines;
}

// Storages that go on record as the one before, and agents as their storage when they are made.
void continued_storages_record() {
    folugben::storage storage(COUNT, 10);
    storage.record(true);
    const folugben::location count("count");
    const auto leave = [](folugben::agent released) { (void)released; };
    (void)storage.close();
    folugben::storage next = storage.next(1);
    leave(next.make_agent(0));
    next.take(0).play([&](folugben::step &it) { it.push(folugben::instructions().put(count, it.get(count))); });
    folugben::agent last = next.take(0);
    last.follow();
    folugben::storage behind = last.go_on(1);
    behind.make_agent(0).play([&](folugben::step &it) { it.push(folugben::instructions().put(count, it.get(count))); });
    WANTED(lines_of(behind.close(), R"({"agent":0,"call":{"read":[["count"]]})").size() == 1);
    leave(std::move(last));
    WANTED(lines_of(next.close(), R"({"agent":0,"call":{"read":[["count"]]})").size() == 1);
}

} // namespace

int main() {
    destroyed_agents_are_returned();
    runs_are_audited_as_their_bytes_come();
    the_first_fault_of_a_run_is_reported_with_its_place();
    steps_stay_valid_when_their_agents_are_moved();
    moved_objects_are_empty();
    threads_take_agents();
    continued_storages_record();
    std::puts("passed");
}
