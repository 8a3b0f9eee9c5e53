// Agents that one thread plays by turns, and agents that go between threads meanwhile.
#include "wanted.hpp"

#include <chrono>
#include <cstdint>
#include <cstdio>
#include <memory>
#include <mutex>
#include <random>
#include <string>
#include <thread>
#include <utility>
#include <vector>

namespace {

using draw = std::minstd_rand;

const char *const ZERO = R"([[["count"],0]])";

std::vector<folugben::agent> agents_of(folugben::storage &storage, std::uint32_t from, std::uint32_t to) {
    std::vector<folugben::agent> all;
    for (std::uint32_t i = from; i < to; ++i) all.push_back(storage.make_agent(i));
    return all;
}

std::int64_t raise(folugben::agent &agent) {
    const folugben::location count("count");
    return agent
        .play([&](folugben::step &step) {
            const std::int64_t next = step.get(count).number_or(0) + 1;
            step.push(folugben::instructions().put(count, next));
            return next;
        })
        .result;
}

void agents_by_turns_see_all_moves_and_lose_none() {
    folugben::storage storage(ZERO, 2000);
    {
        auto agents = agents_of(storage, 0, 20);
        draw random(3);
        for (std::int64_t i = 1; i <= 1000; ++i) {
            WANTED(raise(agents[random() % 20]) == i);
            if (i % 7 == 0) {
                const std::string text = std::to_string(i);
                WANTED(agents[random() % 20].read_json(R"([["count"]])") == R"({"number":)" + text + R"(,"values":[)" + text + "]}");
            }
        }
    }
    const auto verdict = folugben::check(storage.close());
    WANTED(verdict.is_legal && verdict.moves == 1000);
}

void a_followed_state_stays() {
    folugben::storage storage(ZERO, 100);
    folugben::agent one = storage.make_agent(0), other = storage.make_agent(1);
    folugben::location count("count");
    raise(one);
    WANTED(one.follow() == 1);
    raise(other);
    WANTED(one.peek(count).number() == 1 && one.state_json() == R"([[["count"],1]])");
    WANTED(one.read_json(R"([["count"]])") == R"({"number":2,"values":[2]})");
    raise(other);
    WANTED(one.peek(count).number() == 2);
}

void the_own_state_never_goes_back() {
    folugben::storage storage(ZERO, 500);
    auto agents = agents_of(storage, 0, 5);
    folugben::location count("count");
    std::vector<std::uint32_t> versions(5);
    draw random(8);
    for (int i = 0; i < 400; ++i) {
        const std::size_t it = random() % 5;
        switch (random() % 4) {
        case 0: versions[it] = agents[it].follow(); break;
        case 1: raise(agents[it]); break;
        case 2: versions[it] = agents[it].begin().number(); break;
        default: {
            // A returned agent has it still when it is checked out again.
            { const folugben::agent returned = std::move(agents[it]); }
            agents[it] = storage.take(static_cast<std::uint32_t>(it));
        }
        }
        // A call that is refused polls nothing.
        (void)REFUSED(folugben::error, agents[it].stands_json(R"([[["count"],1000]])"));
        std::uint32_t number = 0;
        folugben::value value;
        WANTED(agents[it].try_peek(count, number, value) == code::done && value.number_or(0) == number && number >= versions[it]);
        versions[it] = number;
    }
}

void open_steps_keep_their_state() {
    folugben::storage storage(ZERO, 100);
    folugben::agent one = storage.make_agent(0), other = storage.make_agent(1), third = storage.make_agent(2);
    folugben::location count("count");
    raise(third);
    folugben::step step = one.begin();
    {
        // One step of an agent ends, and the other one goes on.
        folugben::step second = one.begin();
        folugben::step moved = std::move(second);
        moved.push_json(R"([["put",["x"],1]])");
        WANTED(moved.commit() == 2);
    }
    WANTED(raise(other) == 2 && raise(third) == 3);
    WANTED(step.get(count).number() == 1);
    step.push_json(R"([["inc",["count"],1]])");
    folugben::step later = std::move(step);
    WANTED(REFUSED(folugben::conflict, later.commit()).code() == code::stale);
    WANTED(raise(other) == 4 && raise(one) == 5);
}

// Agents that several threads hand one another, and play by turns those that each has: how many moves they fired.
std::int64_t hand_round(std::vector<folugben::agent> pool, int rounds, bool drops_some) {
    std::mutex lock;
    std::vector<std::thread> threads;
    std::vector<std::int64_t> fired(4);
    for (std::size_t i = 0; i < 4; ++i)
        threads.emplace_back([&, i] {
            draw random(static_cast<unsigned>(91 + i));
            std::vector<folugben::agent> held;
            for (int k = 0; k < rounds; ++k) {
                const auto what = random() % 8;
                if (what < 2) {
                    std::lock_guard<std::mutex> guard(lock);
                    if (pool.empty()) continue;
                    held.push_back(std::move(pool.back()));
                    pool.pop_back();
                } else if (held.empty()) {
                    continue;
                } else if (what == 2) {
                    std::swap(held[random() % held.size()], held.back());
                    std::lock_guard<std::mutex> guard(lock);
                    pool.insert(pool.begin(), std::move(held.back()));
                    held.pop_back();
                } else if (what == 3 && drops_some && random() % 50 == 0) {
                    held.pop_back();
                } else {
                    raise(held[random() % held.size()]);
                    ++fired[i];
                }
            }
            std::lock_guard<std::mutex> guard(lock);
            for (auto &it : held) pool.push_back(std::move(it));
        });
    for (auto &it : threads) it.join();
    return fired[0] + fired[1] + fired[2] + fired[3];
}

void agents_go_between_threads_by_turns() {
    folugben::storage storage(ZERO, 100000);
    std::int64_t fired = hand_round(agents_of(storage, 0, 12), 4000, false);
    fired += hand_round(agents_of(storage, 12, 60), 4000, true);
    folugben::agent reader = storage.make_agent(60);
    reader.follow();
    WANTED(reader.peek(folugben::location("count")).number() == fired);
    { folugben::agent given = std::move(reader); }
    const auto verdict = folugben::check(storage.close());
    WANTED(verdict.is_legal && verdict.moves == fired);
}

// Plays at the end of a thread, when its objects are destroyed.
struct plays_last {
    std::vector<folugben::agent> agents;
    ~plays_last() {
        for (auto &it : agents) raise(it);
    }
};

void agents_are_played_where_the_objects_of_a_thread_end() {
    folugben::storage storage(ZERO, 20);
    auto agents = agents_of(storage, 0, 3);
    std::thread([&] {
        thread_local plays_last ends;
        ends.agents = std::move(agents);
        auto others = agents_of(storage, 3, 5);
        for (auto &it : others) raise(it);
    }).join();
    WANTED(storage.moves() == 5 && folugben::check(storage.close()).is_legal);
}

void many_storages_take_turns_in_one_thread() {
    std::vector<folugben::storage> storages;
    std::vector<std::vector<folugben::agent>> agents;
    for (int i = 0; i < 20; ++i) storages.emplace_back(ZERO, 50u);
    for (auto &it : storages) agents.push_back(agents_of(it, 0, 3));
    draw random(12);
    for (std::int64_t i = 1; i <= 30; ++i)
        for (auto &it : agents) WANTED(raise(it[random() % 3]) == i);
    agents.clear();
    storages.clear();
    // A storage may have the address of an earlier one.
    for (int i = 0; i < 30; ++i) {
        folugben::storage again(ZERO, 5);
        for (auto &it : agents_of(again, 0, 3)) raise(it);
        WANTED(again.moves() == 3);
    }
    folugben::storage storage(ZERO, 5);
    folugben::agent abandoned = storage.make_agent(0), other = storage.make_agent(1);
    raise(abandoned);
    abandoned.abandon();
    WANTED(raise(other) == 2);
}

// How long so many moves take, by turns of so many agents; the shortest of three times.
double time_of(std::uint32_t count) {
    double shortest = 1e9;
    for (int round = 0; round < 3; ++round) {
        folugben::storage storage("[]", 10000);
        auto agents = agents_of(storage, 0, count);
        std::vector<folugben::location> places;
        for (int i = 0; i < 32; ++i) places.emplace_back("x", i);
        folugben::instructions move;
        const auto start = std::chrono::steady_clock::now();
        for (std::size_t i = 0; i < 5000; ++i) {
            folugben::step step = agents[i % count].begin();
            const auto &at = places[i % 32];
            step.push(move.clear().put(at, step.get(at).number_or(0) + 1));
            step.commit();
        }
        const std::chrono::duration<double> time = std::chrono::steady_clock::now() - start;
        shortest = time.count() < shortest ? time.count() : shortest;
    }
    return shortest;
}

void many_agents_by_turns_take_hardly_longer_than_one() {
    // They took 30 times as long when each followed all moves.
    const double one = time_of(1), many = time_of(200);
    if (many >= 8 * one) std::printf("%f s, and %f s of one agent\n", many, one);
    WANTED(many < 8 * one);
}

} // namespace

int main() {
    agents_by_turns_see_all_moves_and_lose_none();
    a_followed_state_stays();
    the_own_state_never_goes_back();
    open_steps_keep_their_state();
    agents_go_between_threads_by_turns();
    agents_are_played_where_the_objects_of_a_thread_end();
    many_storages_take_turns_in_one_thread();
    many_agents_by_turns_take_hardly_longer_than_one();
    std::puts("passed");
}
