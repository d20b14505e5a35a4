// The checker of valid URL strings (WHATWG URL Standard, sections 3.4 and 4.3) for C++17: urlcheck.h with views,
// optional values and results.
//
//     if (auto url = urlcheck::check("https://example.com/a?q")) std::cout << *url->host() << url->path();
//
// Nothing here throws, and all may be used without exceptions and from any thread. No memory is taken but for a text or
// a list that is asked for. A text is bytes in UTF-8, and may hold NUL; places count from 0.
#ifndef URLCHECK_HPP
#define URLCHECK_HPP

#include <cstddef>
#include <cstdint>
#include <iterator>
#include <memory>
#include <new>
#include <optional>
#include <ostream>
#include <string>
#include <string_view>
#include <type_traits>
#include <utility>

#include "urlcheck.h"

// What a call gives holds a view of what it is called on: compilers that know the word warn where that has ended.
#if defined(__has_cpp_attribute) && __has_cpp_attribute(clang::lifetimebound)
#define URLCHECK_VIEWS [[clang::lifetimebound]]
#else
#define URLCHECK_VIEWS
#endif

namespace urlcheck {

// Which texts are valid. Each profile accepts what the one before it accepts.
enum class profile : std::uint32_t {
    standard = URLCHECK_STANDARD, // the URL Standard's valid URL strings
    wide = URLCHECK_WIDE,         // also `_` and hyphens anywhere in domains, any segments after an authority
    parser = URLCHECK_PARSER      // each text that the Standard's parser accepts without a validation error, no other
};

// The name by which the command `urlcheck` knows a profile.
constexpr std::string_view name(profile of) noexcept {
    return of == profile::standard ? "standard" : of == profile::wide ? "wide" : "parser";
}

// The rules that a text can violate.
enum class rule : std::uint32_t {
    no_scheme = URLCHECK_NO_SCHEME,
    opaque_base = URLCHECK_OPAQUE_BASE,
    two_slashes = URLCHECK_TWO_SLASHES,
    host_missing = URLCHECK_HOST_MISSING,
    host_domain = URLCHECK_HOST_DOMAIN,
    host_number = URLCHECK_HOST_NUMBER,
    host_ipv6 = URLCHECK_HOST_IPV6,
    host_code_point = URLCHECK_HOST_CODE_POINT,
    port_digit = URLCHECK_PORT_DIGIT,
    port_range = URLCHECK_PORT_RANGE,
    first_segment_empty = URLCHECK_FIRST_SEGMENT_EMPTY,
    drive_after_host = URLCHECK_DRIVE_AFTER_HOST,
    code_point = URLCHECK_CODE_POINT,
    percent = URLCHECK_PERCENT
};

namespace detail {

// The names of the rules, in the order of their numbers, which begin at 1.
constexpr std::string_view rule_names[] = {
    "no-scheme",       "opaque-base", "two-slashes", "host-missing",        "host-domain",      "host-number", "host-ipv6",
    "host-code-point", "port-digit",  "port-range",  "first-segment-empty", "drive-after-host", "code-point",  "percent"};

} // namespace detail

// The rule's name, such as `host-domain`.
constexpr std::string_view name(rule of) noexcept {
    return *(std::data(detail::rule_names) + static_cast<std::uint32_t>(of) - 1);
}

// The rule, or the profile, that has the name.
constexpr std::optional<rule> rule_named(std::string_view name) noexcept {
    std::uint32_t number = 0;
    for (std::string_view it : detail::rule_names)
        if (++number; it == name) return static_cast<rule>(number);
    return std::nullopt;
}
constexpr std::optional<profile> profile_named(std::string_view named) noexcept {
    for (profile it : {profile::standard, profile::wide, profile::parser})
        if (name(it) == named) return it;
    return std::nullopt;
}

// The version of the library, such as "0.5.0", as a number: 10,000 times the first part, 100 times the second, and the third.
inline std::uint32_t version() noexcept { return urlcheck_version(); }

// A rule that a text violates at a place.
struct violation {
    urlcheck::rule rule;
    std::size_t place;      // in code points
    std::size_t byte_place; // in bytes
};

inline bool operator==(const violation &one, const violation &other) noexcept {
    return one.rule == other.rule && one.place == other.place && one.byte_place == other.byte_place;
}
inline bool operator!=(const violation &one, const violation &other) noexcept { return !(one == other); }

// Why there is no answer.
enum class reason : std::uint32_t {
    refused = URLCHECK_REFUSED,       // the text, or the base that was to be made, violates a rule
    no_utf8 = URLCHECK_NO_UTF8,       // it isn't UTF-8
    no_memory = URLCHECK_MEMORY,      // no memory was left; the text may be valid or not
    no_profile = URLCHECK_NO_PROFILE, // no profile has the number
    no_place = URLCHECK_NO_PLACE      // the place of a violation is after the end of the text
};

// Why there is no answer, and where the text is wrong.
struct error {
    urlcheck::reason reason;
    std::size_t place;      // in code points: of a refusal its place, of bytes that aren't UTF-8 where these begin
    std::size_t byte_place; // the same place in bytes
    std::uint32_t number;   // the number of a refusal's rule, otherwise 0

    // The violation for which the text is refused.
    [[nodiscard]] std::optional<urlcheck::violation> violation() const noexcept {
        if (reason != reason::refused) return std::nullopt;
        return urlcheck::violation{static_cast<urlcheck::rule>(number), place, byte_place};
    }
};

// A value, or the error in its place: true if there is the value.
template <class T> class [[nodiscard]] result {
public:
    result(T value) noexcept : value_(std::move(value)), error_() {}
    result(const urlcheck::error &error) noexcept : error_(error) {}

    explicit operator bool() const noexcept { return value_.has_value(); }
    [[nodiscard]] bool has_value() const noexcept { return value_.has_value(); }

    // The value, which has to be there.
    const T &operator*() const & noexcept URLCHECK_VIEWS { return *value_; }
    // (a value of its own, so that a loop over what a call gives has it for as long)
    T operator*() && noexcept { return *std::move(value_); }
    const T *operator->() const noexcept URLCHECK_VIEWS { return &*value_; }

    // The value, if it is there.
    [[nodiscard]] const std::optional<T> &value() const & noexcept URLCHECK_VIEWS { return value_; }
    [[nodiscard]] std::optional<T> value() && noexcept { return std::move(value_); }

    // The error, if there is no value.
    [[nodiscard]] const urlcheck::error &error() const noexcept { return error_; }

private:
    std::optional<T> value_;
    urlcheck::error error_;
};

class text;

namespace detail {

template <class Write> auto written(std::size_t room, Write write, text &out) noexcept;

// Whether it is a string, or a text of the library, that ends with the call to which it is handed.
template <class T>
inline constexpr bool ends_with_the_call =
    std::is_rvalue_reference_v<T> && !std::is_const_v<std::remove_reference_t<T>> &&
    (std::is_same_v<std::decay_t<T>, std::string> || std::is_same_v<std::decay_t<T>, text>);

inline const std::uint8_t *bytes(std::string_view text) noexcept {
    return reinterpret_cast<const std::uint8_t *>(text.data());
}

inline std::uint32_t number(profile by) noexcept { return static_cast<std::uint32_t>(by); }

// The reason of a verdict; the text of a base is as the form of a text.
inline reason reason_of(std::uint32_t verdict) noexcept {
    if (verdict == URLCHECK_BASE_REFUSED) return reason::refused;
    if (verdict == URLCHECK_BASE_NO_UTF8) return reason::no_utf8;
    return static_cast<reason>(verdict);
}

inline urlcheck::error error_of(const urlcheck_finding &found) noexcept {
    return {reason_of(found.verdict), found.place, found.byte_place, found.rule};
}

inline urlcheck::error no_memory() noexcept { return {reason::no_memory, 0, 0, 0}; }

// This many bytes hold nearly every text of these kinds.
constexpr std::size_t usual_fixed_text = 96;
constexpr std::size_t usual_message = 128;

// An array on the heap: of no memory if there was none, and where none was asked for.
template <class T> class array {
public:
    array() noexcept = default;
    explicit array(std::size_t room) noexcept : memory_(new (std::nothrow) T[room == 0 ? 1 : room]), size_(room) {}
    array(array &&other) noexcept : memory_(std::move(other.memory_)), size_(std::exchange(other.size_, 0)) {}
    array &operator=(array &&other) noexcept {
        memory_ = std::move(other.memory_);
        size_ = std::exchange(other.size_, 0);
        return *this;
    }
    array(const array &) = delete;
    array &operator=(const array &) = delete;
    ~array() = default;

    [[nodiscard]] T *data() const noexcept { return memory_.get(); }
    [[nodiscard]] std::size_t size() const noexcept { return size_; }
    // Only the first elements, as many as were written.
    void shrink(std::size_t size) noexcept { size_ = size; }

private:
    std::unique_ptr<T[]> memory_;
    std::size_t size_ = 0;
};

} // namespace detail

// A text that the library has written. It is empty once it was moved from.
class text {
public:
    [[nodiscard]] std::string_view view() const & noexcept URLCHECK_VIEWS {
        return {reinterpret_cast<const char *>(bytes_.data()), bytes_.size()};
    }
    operator std::string_view() const & noexcept URLCHECK_VIEWS { return view(); }
    // (of a text that ends with the call no view is given)
    [[nodiscard]] std::string_view view() const && = delete;
    operator std::string_view() const && = delete;
    [[nodiscard]] std::string str() const { return std::string(view()); }

private:
    template <class Write> friend auto detail::written(std::size_t room, Write write, text &out) noexcept;

    detail::array<std::uint8_t> bytes_;
};

inline bool operator==(const text &one, const text &other) noexcept { return one.view() == other.view(); }
inline bool operator==(const text &one, std::string_view other) noexcept { return one.view() == other; }
inline bool operator==(std::string_view one, const text &other) noexcept { return one == other.view(); }
inline bool operator!=(const text &one, const text &other) noexcept { return !(one == other); }
inline bool operator!=(const text &one, std::string_view other) noexcept { return !(one == other); }
inline bool operator!=(std::string_view one, const text &other) noexcept { return !(one == other); }
inline std::ostream &operator<<(std::ostream &out, const text &it) { return out << it.view(); }

namespace detail {

// Asks `write` for a text: it is handed a buffer, and gives an answer and the length of the text. If the buffer
// is too short, it is called once more. The answer is the last one, or none if no memory was left.
template <class Write> auto written(std::size_t room, Write write, text &out) noexcept {
    using answer = decltype(write(nullptr, room).first);
    for (;;) {
        array<std::uint8_t> bytes(room);
        if (bytes.data() == nullptr) return std::optional<answer>();
        const auto [given, length] = write(bytes.data(), room);
        if (length <= room) {
            bytes.shrink(length);
            out.bytes_ = std::move(bytes);
            return std::optional<answer>(given);
        }
        room = length;
    }
}

} // namespace detail

// The parts of a text, which `Text` holds: views of it without their delimiters. A text that was moved from has none.
template <class Text> class parts {
public:
    parts(Text text, const urlcheck_spans &spans) noexcept : text_(std::move(text)), spans_(spans) {}

    [[nodiscard]] std::string_view text() const noexcept URLCHECK_VIEWS { return text_; }
    [[nodiscard]] std::optional<std::string_view> scheme() const noexcept { return part(spans_.scheme); }
    [[nodiscard]] std::optional<std::string_view> host() const noexcept { return part(spans_.host); }
    [[nodiscard]] std::optional<std::string_view> port() const noexcept { return part(spans_.port); }
    // It begins with its `/`, and may be empty.
    [[nodiscard]] std::string_view path() const noexcept { return part(spans_.path).value_or(std::string_view()); }
    [[nodiscard]] std::optional<std::string_view> query() const noexcept { return part(spans_.query); }
    [[nodiscard]] std::optional<std::string_view> fragment() const noexcept { return part(spans_.fragment); }

private:
    [[nodiscard]] std::optional<std::string_view> part(const urlcheck_span &span) const noexcept {
        if (!span.present || span.start + span.length > text().size()) return std::nullopt;
        return text().substr(span.start, span.length);
    }

    Text text_;
    urlcheck_spans spans_;
};

// A valid text with its parts as they are written, which are views of the caller's text.
using valid = parts<std::string_view>;

// The kinds of hosts (section 3.1).
enum class host_kind : std::uint32_t {
    none = 0,
    domain = URLCHECK_DOMAIN,
    ipv4 = URLCHECK_IPV4,
    ipv6 = URLCHECK_IPV6,
    opaque = URLCHECK_OPAQUE_HOST,
    empty = URLCHECK_EMPTY_HOST
};

// The URL that a valid text denotes, serialized (section 4.5), with its parts.
class url : public parts<urlcheck::text> {
public:
    url(urlcheck::text text, const urlcheck_record &found) noexcept
        : parts(std::move(text), found.parts), host_(found.host), has_opaque_path_(found.opaque_path != 0) {}

    [[nodiscard]] urlcheck::host_kind host_kind() const noexcept { return static_cast<urlcheck::host_kind>(host_); }
    // Whether the path has no segments, as in `urn:isbn:1`.
    [[nodiscard]] bool has_opaque_path() const noexcept { return has_opaque_path_; }

private:
    std::uint32_t host_;
    bool has_opaque_path_;
};

inline bool operator==(const url &one, const url &other) noexcept { return one.text() == other.text(); }
inline bool operator!=(const url &one, const url &other) noexcept { return !(one == other); }
inline std::ostream &operator<<(std::ostream &out, const url &it) { return out << it.text(); }

// How a mended text differs from the refused one.
enum class mend_kind : std::uint32_t {
    same = URLCHECK_SAME,       // a second parser reads both as the same URL
    escaped = URLCHECK_ESCAPED, // it doesn't; some code points are percent-encoded, and nothing else is changed
    changed = URLCHECK_CHANGED  // neither: its author has to look
};

// The word by which `urlcheck mend` writes a kind.
constexpr std::string_view name(mend_kind of) noexcept {
    return of == mend_kind::same ? "same" : of == mend_kind::escaped ? "escaped" : "changed";
}

// A valid text in place of a refused one.
struct mended {
    urlcheck::text text;
    mend_kind kind;
    bool is_offered; // whether reports offer it: if not, its author seems to have meant another link
};

// (a violation is laid out as the library writes one)
static_assert(sizeof(violation) == sizeof(urlcheck_fault) && std::is_standard_layout_v<violation> &&
                  offsetof(violation, rule) == offsetof(urlcheck_fault, rule) &&
                  offsetof(violation, place) == offsetof(urlcheck_fault, place) &&
                  offsetof(violation, byte_place) == offsetof(urlcheck_fault, byte_place),
              "layout");

// All that is wrong with a text, by place and at one place by rule.
class violations {
public:
    using value_type = violation;
    using const_iterator = const violation *;
    using iterator = const_iterator;

    explicit violations(detail::array<violation> found) noexcept : found_(std::move(found)) {}

    [[nodiscard]] std::size_t size() const noexcept { return found_.size(); }
    [[nodiscard]] bool empty() const noexcept { return size() == 0; }
    [[nodiscard]] const violation *begin() const noexcept URLCHECK_VIEWS { return found_.data(); }
    [[nodiscard]] const violation *end() const noexcept URLCHECK_VIEWS { return begin() + size(); }
    [[nodiscard]] const violation &operator[](std::size_t at) const noexcept URLCHECK_VIEWS { return begin()[at]; }

private:
    detail::array<violation> found_;
};

// A base that is valid by itself, checked once for many texts. It keeps a view of its text, which has to be there as
// long as texts are resolved or mended against it.
class base {
public:
    // The base of a text, checked under a profile, which texts are then checked under too; or the error of the base.
    static result<base> of(std::string_view text URLCHECK_VIEWS, urlcheck::profile by = urlcheck::profile::standard) noexcept {
        const urlcheck_base prepared = urlcheck_prepare(detail::bytes(text), text.size(), detail::number(by));
        if (prepared.found.verdict != URLCHECK_VALID) return detail::error_of(prepared.found);
        return base(text, prepared);
    }
    // (of a string that ends with the call no view is kept)
    template <class Text, std::enable_if_t<detail::ends_with_the_call<Text &&>, int> = 0>
    static result<base> of(Text &&text, urlcheck::profile by = urlcheck::profile::standard) = delete;

    [[nodiscard]] std::string_view text() const noexcept { return text_; }
    [[nodiscard]] urlcheck::profile profile() const noexcept {
        return static_cast<urlcheck::profile>(prepared_.profile);
    }
    [[nodiscard]] const urlcheck_base &prepared() const noexcept { return prepared_; }

private:
    base(std::string_view text, const urlcheck_base &prepared) noexcept : text_(text), prepared_(prepared) {}

    std::string_view text_;
    urlcheck_base prepared_;
};

// What a text is checked by: a profile, or a base and its profile. A call takes either in its place.
class setting {
public:
    setting(urlcheck::profile by = urlcheck::profile::standard) noexcept : profile_(detail::number(by)) {}
    setting(const base &against) noexcept
        : profile_(detail::number(against.profile())), prepared_(&against.prepared()), base_(against.text()) {}

    // (a base that ends with the call is not kept)
    setting(const base &&) = delete;

    [[nodiscard]] std::uint32_t profile() const noexcept { return profile_; }
    // The base, or null; and its bytes, or null. (That of a base is never null, since it is valid and so not empty.)
    [[nodiscard]] const urlcheck_base *prepared() const noexcept { return prepared_; }
    [[nodiscard]] const std::uint8_t *base_bytes() const noexcept {
        return prepared_ == nullptr ? nullptr : detail::bytes(base_);
    }
    [[nodiscard]] std::size_t base_size() const noexcept { return base_.size(); }

private:
    std::uint32_t profile_;
    const urlcheck_base *prepared_ = nullptr;
    std::string_view base_;
};

// The valid text with its parts.
inline result<valid> check(std::string_view text URLCHECK_VIEWS, const setting &by = {}) noexcept {
    const urlcheck_answer answer = urlcheck_check(detail::bytes(text), text.size(), by.profile(), by.prepared());
    if (answer.found.verdict != URLCHECK_VALID) return detail::error_of(answer.found);
    return valid(text, answer.parts);
}
// (of a string, or a text, that ends with the call no view is kept; `is_valid` takes one)
template <class Text, std::enable_if_t<detail::ends_with_the_call<Text &&>, int> = 0>
result<valid> check(Text &&text, const setting &by = {}) = delete;

// Whether the text is valid: the fastest call. It is also false if no memory was left for a domain that isn't ASCII,
// and if no profile has the number; `check` tells these apart.
inline bool is_valid(std::string_view text, const setting &by = {}) noexcept {
    return urlcheck_is_valid(detail::bytes(text), text.size(), by.profile(), by.prepared());
}

namespace detail {

// This many bytes hold the URL of nearly every text in which nothing is percent-encoded.
inline std::size_t usual_room(std::string_view text, const setting &by) noexcept {
    return text.size() + by.base_size() + 4;
}

} // namespace detail

// The URL that the text denotes.
inline result<url> resolve(std::string_view text, const setting &by = {}) noexcept {
    urlcheck::text out;
    const auto write = [&](std::uint8_t *memory, std::size_t room) {
        const urlcheck_record found = urlcheck_resolve(detail::bytes(text), text.size(), by.profile(), by.base_bytes(),
                                                       by.base_size(), memory, room);
        return std::pair(found, found.length);
    };
    const auto found = detail::written(detail::usual_room(text, by), write, out);
    if (!found) return detail::no_memory();
    if (found->found.verdict != URLCHECK_VALID) return detail::error_of(found->found);
    return url(std::move(out), *found);
}

// The valid text to write in place of a refused one; nothing if the text is valid; its error if the edits make no
// valid text of it.
inline result<std::optional<mended>> mend(std::string_view text, const setting &by = {}) noexcept {
    urlcheck::text out;
    const auto write = [&](std::uint8_t *memory, std::size_t room) {
        const urlcheck_mended found = urlcheck_mend(detail::bytes(text), text.size(), by.profile(), by.base_bytes(),
                                                    by.base_size(), memory, room);
        return std::pair(found, found.length);
    };
    const auto found = detail::written(detail::usual_room(text, by), write, out);
    if (!found) return detail::no_memory();
    if (found->found.verdict == URLCHECK_VALID) return std::optional<mended>();
    if (found->found.verdict != URLCHECK_MENDED) return detail::error_of(found->found);
    return std::optional(mended{std::move(out), static_cast<mend_kind>(found->kind), found->offered != 0});
}

// All that is wrong with the text; nothing if it is valid.
inline result<violations> violations_of(std::string_view text, const setting &by = {}) noexcept {
    for (std::size_t room = 4;;) {
        detail::array<violation> all(room);
        if (all.data() == nullptr) return detail::no_memory();
        const urlcheck_fault_count found =
            urlcheck_faults(detail::bytes(text), text.size(), by.profile(), by.prepared(),
                            reinterpret_cast<urlcheck_fault *>(all.data()), room);
        const bool is_said = found.found.verdict == URLCHECK_VALID || found.found.verdict == URLCHECK_REFUSED;
        if (!is_said) return detail::error_of(found.found);
        if (found.count <= room) {
            all.shrink(found.count);
            return violations(std::move(all));
        }
        room = found.count;
    }
}

namespace detail {

inline text fixed_text(std::uint32_t what, rule of) noexcept {
    text out;
    const auto write = [&](std::uint8_t *memory, std::size_t room) {
        return std::pair(0, urlcheck_text(what, static_cast<std::uint32_t>(of), memory, room));
    };
    written(usual_fixed_text, write, out);
    return out;
}

} // namespace detail

// What is wrong at the place of a violation, without the code point that is there: `message` names it. It is empty if no
// memory was left, as are those below.
inline text sentence(rule of) noexcept { return detail::fixed_text(URLCHECK_RULE_SENTENCE, of); }
// The address of the section of the URL Standard that has the rule.
inline text address(rule of) noexcept { return detail::fixed_text(URLCHECK_RULE_ADDRESS, of); }
// What the rule requires of a text.
inline text requires_of(rule of) noexcept { return detail::fixed_text(URLCHECK_RULE_REQUIRES, of); }
// The number of that section, and what it calls what the rule is about.
inline text section(rule of) noexcept { return detail::fixed_text(URLCHECK_RULE_SECTION, of); }

// The sentence on a violation of a text that was checked so, which names the code point at the place.
inline result<text> message(std::string_view about, const violation &wrong, const setting &by = {}) noexcept {
    text out;
    const auto write = [&](std::uint8_t *memory, std::size_t room) {
        const urlcheck_written found =
            urlcheck_message(detail::bytes(about), about.size(), by.profile(), by.prepared(), URLCHECK_WORDING_NONE,
                             static_cast<std::uint32_t>(wrong.rule), wrong.place, memory, room);
        return std::pair(found, found.length);
    };
    const auto found = detail::written(detail::usual_message, write, out);
    if (!found) return detail::no_memory();
    if (found->found.verdict != URLCHECK_DONE) return detail::error_of(found->found);
    return out;
}

} // namespace urlcheck

#undef URLCHECK_VIEWS
#endif
