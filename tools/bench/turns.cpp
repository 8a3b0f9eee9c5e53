// Agents that one thread plays by turns, as turns.c does in C: each begins a step, gets a location, pushes one put, and
// commits. A line for each number of agents has the median of the nanoseconds that a move took, and its ratio to that of one
// agent.
//
//     turns_cpp [--quick]
#include <folugben.hpp>

#include <algorithm>
#include <array>
#include <chrono>
#include <cstdint>
#include <cstdio>
#include <string_view>
#include <vector>

namespace {

constexpr std::uint32_t LOCATIONS = 64, MOST_AGENTS = 256, MOVES = 100000, QUICK_MOVES = 20000;
constexpr std::size_t ROUNDS = 9;

void add_one(folugben::agent &agent, const folugben::location &at, folugben::instructions &move) {
    folugben::step step = agent.begin();
    step.push(move.clear().put(at, step.get(at).number() + 1));
    step.commit();
}

// The nanoseconds that one of this many moves takes, by this many agents by turns.
double time_of(std::uint32_t count, std::uint32_t moves) {
    folugben::storage storage("[]", LOCATIONS + moves);
    std::vector<folugben::agent> agents;
    for (std::uint32_t i = 0; i < count; ++i) agents.push_back(storage.make_agent(i));
    std::vector<folugben::location> places;
    for (std::uint32_t i = 0; i < LOCATIONS; ++i) places.emplace_back("x", i);
    folugben::instructions move;
    for (const auto &at : places) add_one(agents[0], at, move);
    const auto start = std::chrono::steady_clock::now();
    for (std::uint32_t i = 0; i < moves; ++i) add_one(agents[(i + 1) % count], places[i % LOCATIONS], move);
    const std::chrono::duration<double, std::nano> time = std::chrono::steady_clock::now() - start;
    for (auto &it : agents) it.abandon();
    return time.count() / moves;
}

double median_of(std::uint32_t count, std::uint32_t moves) {
    std::array<double, ROUNDS> times{};
    for (auto &it : times) it = time_of(count, moves);
    std::sort(times.begin(), times.end());
    return times[ROUNDS / 2];
}

} // namespace

int main(int count, char **words) {
    const bool is_quick = count > 1 && std::string_view(words[1]) == "--quick";
    double alone = 0;
    for (const std::uint32_t agents : {1u, 8u, 64u, MOST_AGENTS}) {
        const double time = median_of(agents, is_quick ? QUICK_MOVES : MOVES);
        alone = alone == 0 ? time : alone;
        std::printf("%u agents by turns\t%.0f\t%.2f\n", agents, time, time / alone);
    }
    return 0;
}
