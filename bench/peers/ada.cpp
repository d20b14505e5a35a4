// Ada over the lines of standard input, as crates/bench_check does it: MODE ROUNDS PROFILE BASE, the profile unread.
// `check` asks can_parse. With a base, which is parsed once, it asks for the parse on which can_parse is: that one
// takes the text of a base and parses it in each call. So it is asked where the base is `own`: then each text is
// after a line with its base. `resolve` parses and takes the href. `version` says which Ada it is.
#include "ada.h"
#include <cstdio>
#include <cstdlib>
#include <iostream>
#include <iterator>
#include <optional>
#include <string>
#include <string_view>
#include <vector>

using Url = ada::url_aggregator;

// The lines that aren't empty.
static std::vector<std::string_view> texts_in(std::string_view left) {
  std::vector<std::string_view> texts;
  while (!left.empty()) {
    size_t end = left.find('\n');
    std::string_view line = left.substr(0, end);
    if (!line.empty()) texts.push_back(line);
    if (end == std::string_view::npos) break;
    left.remove_prefix(end + 1);
  }
  return texts;
}

static bool parses(std::string_view text, const Url *base) {
  if (base == nullptr) return ada::can_parse(text);
  return ada::parser::parse_url_impl<Url, false>(text, base).is_valid;
}

// How many of the texts parse, each against the line before it.
static size_t count_own(const std::vector<std::string_view> &texts) {
  size_t valid = 0;
  for (size_t at = 1; at < texts.size(); at += 2) valid += ada::can_parse(texts[at], &texts[at - 1]);
  return valid;
}

// A verdict for each text, all in one line.
static void put_verdicts(const std::vector<std::string_view> &texts, const Url *base, bool own_base) {
  std::string verdicts;
  for (size_t at = own_base; at < texts.size(); at += 1 + own_base) {
    bool valid = own_base ? ada::can_parse(texts[at], &texts[at - 1]) : parses(texts[at], base);
    verdicts += valid ? '1' : '0';
  }
  std::puts(verdicts.c_str());
}

// The length of the text's href, or nothing where it doesn't parse.
static std::optional<size_t> href_length(std::string_view text, const Url *base) {
  auto url = ada::parse<Url>(text, base);
  if (!url) return std::nullopt;
  return url->get_href().size();
}

// A line with the text's href, or an empty one where it doesn't parse.
static void put_href(std::string_view text, const Url *base) {
  auto url = ada::parse<Url>(text, base);
  std::puts(url ? std::string(url->get_href()).c_str() : "");
}

int main(int argc, char **argv) {
  std::string mode = argc > 1 ? argv[1] : "check";
  int rounds = argc > 2 ? std::atoi(argv[2]) : 1;
  if (mode == "version") return std::puts(ADA_VERSION) < 0;
  std::string bytes((std::istreambuf_iterator<char>(std::cin)), {});
  auto texts = texts_in(bytes);
  std::optional<Url> kept;
  bool own_base = argc > 4 && std::string_view(argv[4]) == "own";
  if (argc > 4 && !own_base) {
    auto url = ada::parse<Url>(argv[4]);
    if (!url) return 2;
    kept = *url;
  }
  const Url *base = kept ? &*kept : nullptr;
  if (mode == "verdicts") {
    put_verdicts(texts, base, own_base);
    return 0;
  }
  if (mode == "texts") {
    for (auto text : texts) put_href(text, base);
    return 0;
  }
  size_t valid = 0;
  for (int round = 0; round < rounds && mode == "check"; round++) {
    valid = 0;
    if (own_base) {
      valid = count_own(texts);
    } else {
      for (auto text : texts) valid += parses(text, base);
    }
  }
  for (int round = 0; round < rounds && mode == "resolve"; round++) {
    valid = 0;
    for (auto text : texts) valid += href_length(text, base).has_value();
  }
  std::printf("%zu lines, %zu valid\n", texts.size(), valid);
}
