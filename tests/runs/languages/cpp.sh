# C++17: urlcheck.hpp with g++ and clang++, without a warning, under sanitizers, without exceptions, by CMake and by
# pkg-config; what callers see, and misuses that the compiler refuses. Sourced by tests/runs/languages.sh.
warned=(-std=c++17 -pthread -Wall -Wextra -Wpedantic -Wconversion -Wsign-conversion -Wshadow -Werror)

# build_cpp : the answers by the copy of the header
build_cpp() {
    g++ "${warned[@]}" -O0 -I "$room/cpp" -I "$include" answers.cpp "$library/lib/liburlcheck.a" -o "$room/answers_cpp"
}

if here C++ g++; then
    copied cpp
    for compiler in g++ clang++; do
        here "C++ by $compiler" $compiler || continue
        quiet "$compiler on answers.cpp" $compiler "${warned[@]}" -fsanitize=address,undefined \
            -fno-sanitize-recover=all -I "$room/cpp" -I "$include" answers.cpp "$library/lib/liburlcheck.a" \
            -o "$room/answers_sanitized"
        answering "C++17 by $compiler, under sanitizers," "$room/answers_sanitized"
        echo '#include "urlcheck.hpp"' >"$room/header.cpp"
        quiet "$compiler on the header, without exceptions" $compiler "${warned[@]}" -fno-exceptions -fno-rtti \
            -I "$room/cpp" -I "$include" -c "$room/header.cpp" -o "$room/header.o"
    done
    if here 'C++ by clang-tidy' clang-tidy; then
        quiet 'clang-tidy on urlcheck.hpp' clang-tidy --quiet --config-file="$top/bindings/cpp/.clang-tidy" \
            "$room/header.cpp" -- -std=c++17 -isystem "$include" -I "$room/cpp"
    fi
    quiet 'g++ on answers.cpp' build_cpp
    for edit in 's/found.place, found.byte_place, found.rule}/found.byte_place, found.place, found.rule}/' \
        's/!span.present ||/span.length == 0 ||/' 's/, base_(against.text())/, base_()/'; do
        spoiled C++ build_cpp cpp urlcheck.hpp "$edit" "$room/answers_cpp"
    done

    # What callers see of the header. Each spoiled copy of it is seen too.
    calls_cpp() {
        g++ "${warned[@]}" -g -fsanitize=address,undefined -fno-sanitize-recover=all -I "$room/cpp" -I "$include" calls.cpp \
            "$library/lib/liburlcheck.a" -o "$room/calls_cpp" && "$room/calls_cpp"
    }
    quiet 'calls.cpp' calls_cpp
    while IFS= read -r edit; do
        cp "$top/bindings/cpp/urlcheck.hpp" "$room/cpp/urlcheck.hpp"
        sed -i "$edit" "$room/cpp/urlcheck.hpp"
        ! cmp -s "$top/bindings/cpp/urlcheck.hpp" "$room/cpp/urlcheck.hpp" || fail "C++: the edit $edit changes nothing"
        ! calls_cpp >/dev/null 2>&1 || fail "C++: a spoiled copy passes calls.cpp: $edit"
        spoils=$((spoils + 1))
    done <<'EDITS'
s/URLCHECK_WORDING_NONE/URLCHECK_WORDING_OPTIONS/
s/? "standard" : of == profile::wide ? "wide"/? "wide" : of == profile::wide ? "standard"/
s/{reason::no_memory, 0, 0, 0}/{reason::no_memory, 1, 0, 0}/
s/"port-digit",  "port-range"/"port-range",  "port-digit"/
s/ || span.start + span.length > text().size()//
s/return begin() + size();/return begin() + size() - 1;/
s/one.place == other.place/true/
EDITS
    cp "$top/bindings/cpp/urlcheck.hpp" "$room/cpp/urlcheck.hpp"

    # misused CODE : this use of a text that ends with a call isn't compiled
    misused() {
        printf '%s\n' '#include <string>' '#include "urlcheck.hpp"' 'std::string made();' "void use() { $1; }" >"$room/misused.cpp"
        ! g++ "${warned[@]}" -Wno-unused-variable -I "$room/cpp" -I "$include" -fsyntax-only "$room/misused.cpp" >"$room/said" 2>&1 ||
            fail "C++: it is compiled: $1"
        grep -qE 'deleted function|nodiscard' "$room/said" || fail "C++: $1: $(head -n 3 "$room/said")"
    }
    misused 'auto url = urlcheck::check(made())'
    misused 'auto base = urlcheck::base::of(made())'
    misused 'auto url = urlcheck::check(urlcheck::sentence(urlcheck::rule::percent))'
    misused 'std::string_view kept = urlcheck::sentence(urlcheck::rule::percent)'
    misused 'auto kept = urlcheck::sentence(urlcheck::rule::percent).view()'
    misused 'urlcheck::check("http://h/")'
    misused 'urlcheck::setting by(*urlcheck::base::of("http://h/"))'

    guide cpp cpp guide_cpp program.cpp
    as_told cpp guide_cpp

    # A project that finds the header and the library by CMake, and one by pkg-config.
    echo '#include <urlcheck.hpp>
int main() { return urlcheck::is_valid("http://h/") ? 0 : 1; }' >"$room/found.cpp"
    # shellcheck disable=SC2046
    quiet 'pkg-config' g++ -std=c++17 "$room/found.cpp" $(pkg-config --cflags --libs urlcheck) -o "$room/found"
    quiet 'the program by pkg-config' "$room/found"
    if here 'C++ by CMake' cmake; then
        mkdir -p "$room/cmake"
        for target in urlcheck static; do
            cp "$room/found.cpp" "$room/cmake/"
            printf '%s\n' 'cmake_minimum_required(VERSION 3.13)' 'project(found CXX)' 'set(CMAKE_CXX_STANDARD 17)' \
                'find_package(urlcheck 0.5 REQUIRED)' 'add_executable(found found.cpp)' \
                "target_link_libraries(found urlcheck::$target)" >"$room/cmake/CMakeLists.txt"
            quiet "cmake with urlcheck::$target" cmake -S "$room/cmake" -B "$room/cmake/$target" \
                -DCMAKE_PREFIX_PATH="$library"
            quiet "the build with urlcheck::$target" cmake --build "$room/cmake/$target"
            quiet "the program with urlcheck::$target" "$room/cmake/$target/found"
        done
    fi
fi
