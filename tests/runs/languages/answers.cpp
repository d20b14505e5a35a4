// Answers each case of a file of cases (see tests/runs/library/cases.py) by urlcheck.hpp, in each profile, a line each.
// With the word `mended` after the file a line has what is mended.
#include "urlcheck.hpp"

#include <cstdint>
#include <cstdlib>
#include <fstream>
#include <iostream>
#include <iterator>
#include <optional>
#include <sstream>
#include <string>
#include <string_view>
#include <thread>
#include <vector>

namespace {

constexpr std::uint32_t absent = 0xFFFFFFFF;
constexpr urlcheck::profile profiles[] = {urlcheck::profile::standard, urlcheck::profile::wide,
                                          urlcheck::profile::parser};

void require(bool holds, const char *what) {
    if (holds) return;
    std::cerr << "answers: " << what << '\n';
    std::exit(1);
}

// The texts of a file: each after its length in four bytes, lowest first.
std::vector<std::optional<std::string>> texts_of(const char *file) {
    std::ifstream in(file, std::ios::binary);
    require(in.good(), "the cases can't be read");
    const std::string data{std::istreambuf_iterator<char>(in), {}};
    std::vector<std::optional<std::string>> texts;
    for (std::size_t at = 0; at < data.size();) {
        std::uint32_t length = 0;
        for (unsigned shift = 0; shift < 32; shift += 8) {
            length |= static_cast<std::uint32_t>(static_cast<unsigned char>(data[at++])) << shift;
        }
        if (length == absent) {
            texts.emplace_back(std::nullopt);
        } else {
            texts.emplace_back(data.substr(at, length));
            at += length;
        }
    }
    return texts;
}

std::string at(const urlcheck::violation &wrong) {
    std::ostringstream said;
    said << wrong.place << ' ' << wrong.byte_place << ' ' << urlcheck::name(wrong.rule);
    return said.str();
}

urlcheck::violation violation_of(const urlcheck::error &error) {
    const auto found = error.violation();
    require(found.has_value(), "an error that is no refusal");
    return *found;
}

std::string shown(std::optional<std::string_view> part) { return part ? "\t+" + std::string(*part) : "\t-"; }

std::string with(const char *mark, std::optional<std::string_view> part) {
    return part ? mark + std::string(*part) : std::string();
}

// The URL with its parts joined again, which has to be its text.
std::string joined(const urlcheck::url &url) {
    const bool is_dotted = !url.host() && url.path().substr(0, 2) == "//";
    return with("", url.scheme()) + ":" + with("//", url.host()) + with(":", url.port()) + (is_dotted ? "/." : "") +
           std::string(url.path()) + with("?", url.query()) + with("#", url.fragment());
}

// The answer of each call for one text, which have to agree. It is checked by a profile or against a base.
template <class Setting> std::string line(std::string_view text, const Setting &by) {
    const auto url = urlcheck::check(text, by);
    const auto record = urlcheck::resolve(text, by);
    const auto wrong = urlcheck::violations_of(text, by);
    require(urlcheck::is_valid(text, by) == url.has_value() && record.has_value() == url.has_value(), "two verdicts");
    require(wrong.has_value() && wrong->empty() == url.has_value(), "violations of a valid text, or none");
    std::string said;
    if (!url) {
        const urlcheck::violation first = violation_of(url.error());
        const auto message = urlcheck::message(text, first);
        require(violation_of(record.error()) == first && message && !message->view().empty(), "another refusal");
        said = "1 " + at(first);
    } else {
        require(joined(*record) == record->text() && url->text() == text, "the parts of the URL aren't it");
        said = "0" + shown(url->scheme()) + shown(url->host()) + shown(url->port()) + shown(url->path()) +
               shown(url->query()) + shown(url->fragment()) + "\t" + std::string(record->text());
    }
    for (const urlcheck::violation &one : *wrong) said += "\t" + at(one);
    return said;
}

template <class Setting> std::string mended(std::string_view text, const Setting &by) {
    const auto answer = urlcheck::mend(text, by);
    std::ostringstream said;
    if (!answer) {
        const urlcheck::violation first = violation_of(answer.error());
        said << "none\trefused " << first.place << ' ' << urlcheck::name(first.rule);
    } else if (!*answer) {
        said << "valid";
    } else {
        said << "mended " << urlcheck::name((*answer)->kind) << '\t' << (*answer)->text.view();
    }
    return said.str();
}

template <class Setting> std::string answer(std::string_view text, const Setting &by, bool is_mended) {
    return is_mended ? mended(text, by) : line(text, by);
}

std::string refused_base(const urlcheck::error &error, bool is_mended) {
    const urlcheck::violation first = violation_of(error);
    if (!is_mended) return "3 " + at(first);
    return "base refused " + std::to_string(first.place) + " " + std::string(urlcheck::name(first.rule));
}

// What a caller may hand in by mistake is an error of its own.
void refuse_mistakes() {
    using urlcheck::reason;
    const std::string_view nul("http://h/\0", 10);
    require(urlcheck::check(nul).error().byte_place == 9, "a NUL");
    require(urlcheck::check(std::string_view()).error().reason == reason::refused, "a text of no memory");
    require(urlcheck::check("http://h/\xff").error().reason == reason::no_utf8, "bytes that are no UTF-8");
    require(urlcheck::base::of("http://h/\xff").error().reason == reason::no_utf8, "a base that is no UTF-8");
    require(urlcheck::base::of("").error().reason == reason::refused, "an empty base");
    const auto none = static_cast<urlcheck::profile>(3);
    require(urlcheck::check("http://h/", none).error().reason == reason::no_profile, "no profile");
    require(urlcheck::resolve("http://h/", none).error().reason == reason::no_profile, "no profile of resolve");
    require(urlcheck::mend("http://h/", none).error().reason == reason::no_profile, "no profile of mend");
    require(!urlcheck::violations_of("http://h/", none) && !urlcheck::is_valid("http://h/", none), "no profile of all");
    const urlcheck::violation beyond{urlcheck::rule::percent, 9, 9};
    require(urlcheck::message("x", beyond).error().reason == reason::no_place, "a place after the end");
    auto found = urlcheck::resolve("http://H/");
    const urlcheck::url kept = *std::move(found);
    require(kept.text() == "http://h/" && kept.host() == "h", "a URL that was moved");
}

// Threads share a base.
void share_base() {
    const auto base = urlcheck::base::of("http://h/a/b", urlcheck::profile::parser);
    const auto resolve = [&base] {
        for (int round = 0; round < 1000; round++) {
            require(urlcheck::resolve("../c", *base)->text() == "http://h/c", "a base that threads share");
            require(!urlcheck::is_valid("^", *base), "a base that threads share");
        }
    };
    std::thread one(resolve), other(resolve);
    one.join();
    other.join();
}

} // namespace

int main(int count, char **words) {
    require(count >= 2, "usage: answers CASES [mended]");
    refuse_mistakes();
    share_base();
    const auto texts = texts_of(words[1]);
    for (std::size_t row = 0; row < texts.size(); row += 2) {
        for (const urlcheck::profile by : profiles) {
            const std::string_view text = *texts[row];
            if (!texts[row + 1]) {
                std::cout << answer(text, by, count > 2) << '\n';
                continue;
            }
            const std::string_view against = *texts[row + 1];
            const auto base = urlcheck::base::of(against, by);
            std::cout << (base ? answer(text, *base, count > 2) : refused_base(base.error(), count > 2)) << '\n';
        }
    }
    return 0;
}
