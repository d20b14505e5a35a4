// urlcheck.hpp and urlcheck.h over the lines of a file: a row for each call.
#include <chrono>
#include <cstdio>
#include <cstdlib>
#include <fstream>
#include <string>
#include <string_view>
#include <vector>

#include "urlcheck.hpp"

namespace {

struct figure {
    double nanoseconds; // a text, in the fastest round
    std::size_t accepted;
};

template <class Call> figure least(int rounds, const std::vector<std::string> &texts, Call is_accepted) {
    figure fastest{0, 0};
    for (int round = 0; round < rounds; round++) {
        std::size_t count = 0;
        const auto started = std::chrono::steady_clock::now();
        for (const std::string &text : texts) count += is_accepted(text) ? 1 : 0;
        const std::chrono::duration<double, std::nano> took = std::chrono::steady_clock::now() - started;
        const double each = took.count() / static_cast<double>(texts.size());
        if (round == 0 || each < fastest.nanoseconds) fastest = {each, count};
    }
    return fastest;
}

bool checks_in_c(const std::string &text) {
    const auto *bytes = reinterpret_cast<const std::uint8_t *>(text.data());
    return urlcheck_check(bytes, text.size(), URLCHECK_STANDARD, nullptr).found.verdict == URLCHECK_VALID;
}

void row(const char *name, figure own, figure peer) {
    std::printf("C++17\t%s\t%.1f\turlcheck_check\t%.1f\t%zu\n", name, own.nanoseconds, peer.nanoseconds, own.accepted);
}

} // namespace

int main(int, char **words) {
    std::vector<std::string> texts;
    std::ifstream in(words[1]);
    for (std::string line; std::getline(in, line);) texts.push_back(line);
    const int rounds = std::atoi(words[2]);
    const figure peer = least(rounds, texts, checks_in_c);
    row("is_valid", least(rounds, texts, [](std::string_view text) { return urlcheck::is_valid(text); }), peer);
    row("check", least(rounds, texts, [](std::string_view text) { return urlcheck::check(text).has_value(); }), peer);
    const auto resolves = [](std::string_view text) { return urlcheck::resolve(text).has_value(); };
    row("resolve", least(rounds, texts, resolves), peer);
    return 0;
}
