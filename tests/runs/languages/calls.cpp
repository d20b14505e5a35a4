// What callers of urlcheck.hpp see besides the answers: names, comparisons, lists, sentences, texts that were moved, and want of
// memory, which this program makes.
#include "urlcheck.hpp"

#include <algorithm>
#include <cstdlib>
#include <iostream>
#include <new>
#include <sstream>
#include <string>
#include <string_view>
#include <utility>
#include <vector>

namespace {

bool has_memory = true;

void require(bool holds, const char *what) {
    if (holds) return;
    std::cerr << "calls: " << what << '\n';
    std::exit(1);
}

template <class T> std::string shown(const T &it) {
    std::ostringstream out;
    out << it;
    return out.str();
}

// The name of a rule by the library for C.
std::string name_by_c(std::uint32_t number) {
    std::uint8_t name[64];
    const std::size_t length = urlcheck_text(URLCHECK_RULE_NAME, number, name, sizeof name);
    return {reinterpret_cast<const char *>(name), length};
}

void names() {
    static_assert(urlcheck::name(urlcheck::rule::host_domain) == "host-domain");
    static_assert(urlcheck::rule_named("percent") == urlcheck::rule::percent && !urlcheck::rule_named("Percent"));
    for (std::uint32_t number = 1; number <= URLCHECK_PERCENT; number++) {
        const auto rule = static_cast<urlcheck::rule>(number);
        require(urlcheck::name(rule) == name_by_c(number), "another name of a rule");
        require(urlcheck::rule_named(urlcheck::name(rule)) == rule, "a rule by its name");
        require(!urlcheck::sentence(rule).str().empty() && urlcheck::sentence(rule) != urlcheck::requires_of(rule) &&
                    urlcheck::section(rule) != urlcheck::address(rule),
                "a text of a rule");
    }
    using urlcheck::profile;
    require(urlcheck::name(profile::standard) == "standard" && urlcheck::name(profile::wide) == "wide" &&
                urlcheck::name(profile::parser) == "parser",
            "a name of a profile");
    require(urlcheck::profile_named("wide") == profile::wide && !urlcheck::profile_named("Wide"), "a profile by its name");
    require(urlcheck::version() == URLCHECK_VERSION, "the version");
}

void lists() {
    const auto all = urlcheck::violations_of("http://h/a b%");
    require(all.has_value() && all->size() == 2 && !all->empty(), "how many violations");
    const std::vector<urlcheck::violation> kept(all->begin(), all->end());
    require(kept[0] == urlcheck::violation{urlcheck::rule::code_point, 10, 10} && (*all)[1] == kept[1], "the violations");
    require(kept[0] != urlcheck::violation{urlcheck::rule::code_point, 11, 10}, "another place");
    const auto found = std::find_if(all->begin(), all->end(), [](const auto &it) { return it.rule == urlcheck::rule::percent; });
    require(found != all->end() && found->place == 12, "one that is sought");
    std::size_t count = 0;
    for (const auto &one : *urlcheck::violations_of("http://h/ ^|")) count += one.place;
    require(count == 9 + 10 + 11, "a list that ends with its loop");
}

void sentences() {
    const auto wrong = urlcheck::check("http://a_b/").error().violation();
    require(wrong.has_value(), "a refusal");
    const auto said = urlcheck::message("http://a_b/", *wrong);
    require(said.has_value() && *said == "U+005F LOW LINE is not allowed in a domain", "the sentence");
    require("another" != *said && shown(*said) == said->str(), "a sentence that is compared and shown");
}

void records() {
    auto one = urlcheck::resolve("http://H/a?b#c"), other = urlcheck::resolve("http://h/a?b#c");
    require(one && other && *one == *other && shown(*one) == "http://h/a?b#c", "records that are compared and shown");
    const urlcheck::url kept = *std::move(one);
    require(kept.text() == "http://h/a?b#c" && kept.path() == "/a" && kept.query() == "b", "a record that was moved to");
    require(one->text().empty() && one->path().empty() && !one->host() && !one->fragment(), "a record that was moved from");
    require(kept != *urlcheck::resolve("http://h/b"), "another record");
}

void without_memory() {
    has_memory = false;
    const auto record = urlcheck::resolve("http://h/");
    const auto mended = urlcheck::mend("http://h/ ");
    const auto all = urlcheck::violations_of("http://h/ ");
    const auto said = urlcheck::message("x", {urlcheck::rule::no_scheme, 0, 0});
    has_memory = true;
    for (const urlcheck::error &it : {record.error(), mended.error(), all.error(), said.error()}) {
        require(it.reason == urlcheck::reason::no_memory && it.place == 0 && it.byte_place == 0 && !it.violation(),
                "want of memory");
    }
    require(!record && !mended && !all && !said, "a value without memory");
}

} // namespace

// (of the forms that urlcheck.hpp takes memory by, the one that gives null)
void *operator new[](std::size_t size, const std::nothrow_t &) noexcept { return has_memory ? std::malloc(size) : nullptr; }
void operator delete[](void *memory) noexcept { std::free(memory); }
void operator delete[](void *memory, std::size_t) noexcept { std::free(memory); }

int main() {
    names();
    lists();
    sentences();
    records();
    without_memory();
    return 0;
}
