// Checks of the tests, each of which writes a line if it fails.
#ifndef WANTED_HPP
#define WANTED_HPP

#include <folugben.hpp>

#include <cstdio>
#include <cstdlib>

using folugben::code;

inline const char *const COUNT = R"([[["count"],7]])";

inline void empty_move(folugben::step &step) { step.push_json("[]"); }

inline void wanted(bool holds, const char *what, int line) {
    if (holds) return;
    std::printf("line %d: %s doesn't hold\n", line, what);
    std::exit(1);
}
#define WANTED(...) wanted((__VA_ARGS__), #__VA_ARGS__, __LINE__)

// The error that the call throws; it has to throw one of this kind.
template <class Error, class Call> Error refused(Call call, int line) {
    try {
        call();
    } catch (const Error &error) {
        return error;
    }
    wanted(false, "an error of the kind", line);
    std::abort();
}
#define REFUSED(Error, ...) refused<Error>([&] { __VA_ARGS__; }, __LINE__)

#endif
