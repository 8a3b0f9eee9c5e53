// Runs in folders: what is saved is found again, and faults, failures and other processes are reported.
#include "wanted.hpp"

#include <cstdint>
#include <cstdio>
#include <filesystem>
#include <fstream>
#include <string>
#include <system_error>
#include <thread>
#include <utility>
#include <vector>

namespace {

namespace files = std::filesystem;

std::string fresh_folder() {
    std::string path = (files::temp_directory_path() / "folugben-XXXXXX").string();
    WANTED(::mkdtemp(path.data()) != nullptr);
    return path;
}

// Four agents add 1 to the count, each so often.
void count(folugben::run &run, int times) {
    std::vector<std::thread> threads;
    for (std::uint32_t i = 0; i < 4; ++i)
        threads.emplace_back(
            [times](folugben::agent agent) {
                for (int k = 0; k < times; ++k)
                    agent.play([](folugben::step &step) { step.push_json(R"([["inc",["count"],1]])"); });
            },
            run.part().make_agent(i));
    for (auto &thread : threads) thread.join();
}

std::int64_t counted(folugben::run &run) {
    folugben::agent agent = run.part().make_agent(9);
    return agent.peek(folugben::location("count")).number();
}

std::vector<std::string> segments(const std::string &folder) {
    std::vector<std::string> found;
    for (const auto &it : files::directory_iterator(folder))
        if (it.path().extension() == ".journal") found.push_back(it.path().string());
    std::sort(found.begin(), found.end());
    return found;
}

std::errc why(const std::system_error &error) { return static_cast<std::errc>(error.code().value()); }

void what_is_saved_is_found() {
    const std::string folder = fresh_folder();
    {
        WANTED(why(REFUSED(std::system_error, folugben::run::resume(folder))) == std::errc::no_such_file_or_directory);
        folugben::run run = folugben::run::open(folder, COUNT, 1000);
        WANTED(run.saved().segments == 1 && run.saved().moves == 0);
        WANTED(run.flush().segments == 1 && segments(folder).size() == 1);
        count(run, 10);
        const folugben::saved_run saved = run.flush();
        WANTED(saved.segments == 2 && saved.moves == 40 && saved.first == 0 && saved.digest.size() == 64);
        count(run, 5);
        WANTED(run.flush().moves == 60);
        count(run, 5); // isn't saved
        WANTED(why(REFUSED(std::system_error, folugben::run::resume(folder))) == std::errc::resource_unavailable_try_again);
        folugben::run moved = std::move(run);
        WANTED(moved.saved().segments == 3);
        WANTED(REFUSED(folugben::error, run.part()).code() == code::empty);
        WANTED(REFUSED(folugben::error, run.saved()).code() == code::empty);
    }
    WANTED(why(REFUSED(std::system_error, folugben::run::open(folder, COUNT))) == std::errc::file_exists);
    folugben::run run = folugben::run::resume(folder);
    WANTED(counted(run) == 67 && run.saved().moves == 60 && run.saved().segments == 3);
    count(run, 1);
    WANTED(run.flush().moves == 64 && counted(run) == 71 && run.flush().segments == 4);
    files::remove_all(folder);
}

void the_oldest_are_dropped() {
    const std::string folder = fresh_folder();
    {
        folugben::run run = folugben::run::open(folder, COUNT, 1000);
        for (int i = 0; i < 4; ++i) {
            count(run, 1);
            run.flush();
        }
        WANTED(run.keep(9).first == 0 && segments(folder).size() == 5);
        WANTED(run.keep(2).first == 3 && segments(folder).size() == 2);
        WANTED(run.keep(0).first == 4 && segments(folder).size() == 1 && run.saved().segments == 5);
        count(run, 1);
        run.flush();
    }
    folugben::run run = folugben::run::resume(folder);
    WANTED(run.saved().first == 4 && run.saved().segments == 6 && run.saved().moves == 20 && counted(run) == 27);
    WANTED(run.keep(1).first == 5);
    files::remove_all(folder);
}

void faults_are_reported() {
    const std::string folder = fresh_folder();
    {
        folugben::run run = folugben::run::open(folder, COUNT, 1000);
        for (int i = 0; i < 3; ++i) {
            count(run, 1);
            run.flush();
        }
        folugben::agent agent = run.part().make_agent(0);
        agent.play(empty_move);
        WANTED(REFUSED(folugben::missing, run.flush()).number() == 1 && run.saved().segments == 4);
    }
    const auto found = segments(folder);
    const auto wrong = [&] { return REFUSED(folugben::audit_error, folugben::run::resume(folder)); };
    files::rename(found[2], folder + "/away");
    WANTED(wrong().code() == code::not_next && wrong().part() == 2);
    files::copy_file(found[1], found[2]);
    WANTED(wrong().code() == code::damaged && wrong().part() == 2);
    files::rename(folder + "/away", found[2]);
    {
        std::fstream file(found[3], std::ios::in | std::ios::out);
        file.seekp(20);
        file.put('#');
    }
    WANTED(wrong().code() == code::damaged && wrong().part() == 3);
    files::rename(found[3], folder + "/00000003-1.journal");
    WANTED(wrong().code() == code::name && wrong().part() == 3);
    files::remove(folder + "/00000003-1.journal");
    folugben::run run = folugben::run::resume(folder);
    WANTED(run.saved().segments == 3 && counted(run) == 15);
    // A segment that can't be written ends the run; what was saved is there.
    files::create_directories(folder + "/new/new");
    count(run, 1);
    WANTED(REFUSED(std::system_error, run.flush()).code().value() != 0);
    WANTED(run.saved().segments == 3);
    WANTED(REFUSED(folugben::error, run.flush()).code() == code::order);
    WANTED(REFUSED(folugben::error, run.keep(1)).code() == code::order);
    files::remove_all(folder);
}

} // namespace

int main() {
    what_is_saved_is_found();
    the_oldest_are_dropped();
    faults_are_reported();
    std::printf("runs: what was saved is found\n");
}
