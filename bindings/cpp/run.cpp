// A run that goes on from storage to storage. Its journals, the parts of the run, are audited as they come.
#include <folugben.hpp>

#include <cstdio>
#include <string>
#include <thread>
#include <utility>
#include <vector>

namespace {

constexpr std::uint32_t AGENTS = 4;
constexpr std::uint32_t MOVES = 500;
constexpr int PARTS = 6;

// Counts up until the storage is full.
void work(folugben::agent agent) {
    folugben::location count("count");
    folugben::instructions move;
    try {
        for (;;) agent.play([&](folugben::step &step) { step.push(move.clear().put(count, step.get(count).number() + 1)); });
    } catch (const folugben::full &) {
    }
}

// Fills the storage, and opens the one in which the run goes on.
folugben::storage fill(folugben::storage &part) {
    std::vector<std::thread> threads;
    for (std::uint32_t i = 0; i < AGENTS; ++i) threads.emplace_back(work, part.make_agent(i));
    for (auto &thread : threads) thread.join();
    folugben::agent reader = part.make_agent(AGENTS);
    reader.follow();
    return reader.go_on(MOVES);
}

} // namespace

int main() {
    folugben::storage part(R"([[["count"],0]])", MOVES);
    folugben::auditor auditor;
    for (int i = 0; i < PARTS; ++i) {
        folugben::storage next = fill(part);
        auditor.feed(part.close());
        part = std::move(next);
    }
    asm_audit_numbers counts = auditor.end();
    std::string state = auditor.state_json();
    std::printf("%llu moves, %llu parts, %s\n", static_cast<unsigned long long>(counts.moves),
                static_cast<unsigned long long>(counts.parts), state.c_str());
    return counts.moves == MOVES * PARTS && counts.parts == PARTS && state == R"([[["count"],3000]])" ? 0 : 1;
}
