// Answers each case of a file of cases (see cases.py) by the library, in each profile, a line each: as answers.c, in
// C++.
#include "urlcheck.h"

#include <cstdint>
#include <fstream>
#include <iostream>
#include <stdexcept>
#include <string>
#include <vector>

namespace {

struct Text {
    bool present = false;
    std::string bytes;

    const uint8_t *data() const { return reinterpret_cast<const uint8_t *>(bytes.data()); }
    size_t size() const { return bytes.size(); }
};

bool read_text(std::istream &file, Text &text) {
    unsigned char front[4];
    if (!file.read(reinterpret_cast<char *>(front), 4)) return false;
    uint32_t length = front[0] | uint32_t(front[1]) << 8 | uint32_t(front[2]) << 16 | uint32_t(front[3]) << 24;
    text.present = length != UINT32_MAX;
    text.bytes.assign(text.present ? length : 0, '\0');
    if (!file.read(&text.bytes[0], static_cast<std::streamsize>(text.size()))) {
        throw std::runtime_error("a text is cut off");
    }
    return true;
}

std::string rule_name(uint32_t rule) {
    std::string name(urlcheck_text(URLCHECK_RULE_NAME, rule, nullptr, 0), '\0');
    urlcheck_text(URLCHECK_RULE_NAME, rule, reinterpret_cast<uint8_t *>(&name[0]), name.size());
    return name;
}

// A base that is held, for as long as a text is checked against it.
struct Held {
    bool present;
    urlcheck_base base;

    Held(const Text &text, uint32_t profile)
        : present(text.present), base(urlcheck_prepare(text.data(), text.size(), profile)) {}
    const urlcheck_base *given() const { return present ? &base : nullptr; }
};

urlcheck_record resolve(const Text &text, const Text &base, uint32_t profile, std::string &out) {
    uint8_t *front = reinterpret_cast<uint8_t *>(&out[0]);
    return urlcheck_resolve(text.data(), text.size(), profile, base.present ? base.data() : nullptr, base.size(), front,
                            out.size());
}

urlcheck_fault_count faults(const Text &text, const Held &held, uint32_t profile, std::vector<urlcheck_fault> &out) {
    return urlcheck_faults(text.data(), text.size(), profile, held.given(), out.data(), out.size());
}

void print_part(const Text &text, const urlcheck_span &span) {
    std::cout << '\t';
    if (span.present) {
        std::cout << '+' << text.bytes.substr(span.start, span.length);
    } else {
        std::cout << '-';
    }
}

void answer(const Text &text, const Text &base, uint32_t profile) {
    Held held(base, profile);
    urlcheck_answer found = urlcheck_check(text.data(), text.size(), profile, held.given());
    std::cout << found.found.verdict;
    if (found.found.rule) {
        std::cout << ' ' << found.found.place << ' ' << found.found.byte_place << ' ' << rule_name(found.found.rule);
    }
    if (found.found.verdict == URLCHECK_VALID) {
        for (const urlcheck_span &span : {found.parts.scheme, found.parts.host, found.parts.port, found.parts.path,
                                          found.parts.query, found.parts.fragment}) {
            print_part(text, span);
        }
        std::string record(1, '\0');
        record.resize(resolve(text, base, profile, record).length);
        resolve(text, base, profile, record);
        std::cout << '\t' << record;
    }
    std::vector<urlcheck_fault> all(1);
    all.resize(faults(text, held, profile, all).count + 1);
    all.resize(faults(text, held, profile, all).count);
    for (const urlcheck_fault &fault : all) {
        std::cout << '\t' << fault.place << ' ' << fault.byte_place << ' ' << rule_name(fault.rule);
    }
    std::cout << '\n';
}

} // namespace

int main(int count, char **words) {
    if (count != 2) {
        std::cerr << "usage: answers CASES\n";
        return 2;
    }
    std::ifstream file(words[1], std::ios::binary);
    if (!file) {
        std::cerr << "the cases can't be opened\n";
        return 1;
    }
    Text text, base;
    while (read_text(file, text)) {
        if (!read_text(file, base)) return 1;
        answer(text, base, URLCHECK_STANDARD);
        answer(text, base, URLCHECK_WIDE);
        answer(text, base, URLCHECK_PARSER);
    }
    return 0;
}
