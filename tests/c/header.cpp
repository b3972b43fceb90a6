// The header in C++17: the names are C's, and document 01's example runs from a vector.
#include "dibol.h"

#include <array>
#include <cstdio>
#include <string>
#include <vector>

int main()
{
    const std::string text("41\1\0\0\0\0\2\0\1\2\0\0\0\3\0\0\0\0\0\0\0\13\0\0\0\0\0\0\0"
                           "\0\2\0\1\0\4\0\0\0\2DB",
                           42);
    const std::vector<uint8_t> unit(text.begin(), text.end());
    std::vector<uint8_t> data(unit.begin(), unit.begin() + 2);
    std::array<uint64_t, DIBOL_STATE_LEN> state{};
    std::array<uint64_t, 3> answer{};
    const uint64_t stop = dibol_run(unit.data(), unit.size(), data.data(), data.size(),
                                    state.data(), state.size(), 100, answer.data(), answer.size());
    const bool right = stop == DIBOL_END && answer[1] == 2 && answer[2] == 2 &&
                       std::string(data.begin(), data.end()) == "42";

    std::printf("header.cpp: document 01's example %s\n", right ? "runs" : "does not run");
    return right ? 0 : 1;
}
