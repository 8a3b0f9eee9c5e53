// Eight threads move money between accounts; none is lost, and the journal has each move.
#include <folugben.hpp>

#include <cstdio>
#include <string>
#include <thread>
#include <vector>

namespace {

constexpr std::size_t ACCOUNTS = 10;
constexpr std::uint32_t AGENTS = 8;
constexpr std::uint32_t TRANSFERS = 300;

std::vector<folugben::location> accounts() {
    std::vector<folugben::location> all;
    for (std::uint32_t i = 0; i < ACCOUNTS; ++i) all.emplace_back("account", i);
    return all;
}

void transfer(folugben::agent &agent, const folugben::location &from, const folugben::location &to) {
    agent.play([&](folugben::step &step) {
        auto moved = std::min<std::int64_t>(step.get(from).number(), 7);
        folugben::instructions move;
        step.push(move.inc(from, -moved).inc(to, moved));
    });
}

void work(folugben::agent agent, std::uint32_t number) {
    const auto all = accounts();
    for (std::uint32_t i = 0; i < TRANSFERS; ++i) {
        const std::size_t from = (i * 3 + number) % ACCOUNTS;
        transfer(agent, all[from], all[(from + 1 + i % 4) % ACCOUNTS]);
    }
}

} // namespace

int main() {
    std::string init = "[";
    for (std::size_t i = 0; i < ACCOUNTS; ++i) init += (i ? ",[[\"account\"," : "[[\"account\",") + std::to_string(i) + "],100]";
    folugben::storage storage(init + "]", 100000);
    std::vector<std::thread> threads;
    for (std::uint32_t i = 0; i < AGENTS; ++i) threads.emplace_back(work, storage.make_agent(i), i);
    for (auto &thread : threads) thread.join();

    auto verdict = folugben::check(storage.close());
    std::int64_t sum = 0;
    folugben::agent reader = storage.make_agent(AGENTS);
    reader.follow();
    for (const auto &at : accounts()) sum += reader.peek(at).number();
    std::printf("%u moves, %s, sum %lld\n", verdict.moves, verdict.is_legal ? "legal" : "illegal", static_cast<long long>(sum));
    return verdict.is_legal && sum == 100 * ACCOUNTS && verdict.moves == AGENTS * TRANSFERS ? 0 : 1;
}
