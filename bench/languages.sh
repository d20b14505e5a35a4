#!/usr/bin/env bash
# What a call costs from Rust, Go, Java and C++, compared with the language's own parser, over the same mixed links in one run:
# the nanoseconds a link of the fastest of some rounds, and their ratio. The peers are the crate `url` (of Debian's
# librust-url-dev), net/url and java.net.URI; urlcheck.hpp is compared with urlcheck.h. What isn't installed is left out, with
# a line. It fails when a call accepts another number of links than are known to be valid. LIBRARY may name a folder
# that tools/build-library wrote.
# Usage: bench/languages.sh [--count COUNT] [--rounds ROUNDS] [--seed SEED]
set -euo pipefail
top=$(dirname "$(dirname "$(realpath "$0")")")
seed=1 count=10000 rounds=100
. "$top/bench/words.sh"
words seed count rounds -- "$@"
. "$top/bench/peers/build.sh"
room=$(mktemp -d)
trap 'rm -rf "$room"' EXIT
library=${LIBRARY:-$room/library}
[ -n "${LIBRARY:-}" ] || "$top/tools/build-library" "$library" >&2
library=$(realpath "$library")
export PKG_CONFIG_PATH=$library/lib/pkgconfig LD_LIBRARY_PATH=$library/lib URLCHECK_LIB_DIR=$library/lib
export GOPROXY=off GOFLAGS=-mod=mod CARGO_TARGET_DIR=$room/target

valid=$(python3 "$top/bench/links.py" "$count" "$seed" 2>&1 >"$room/links")

in_rust() {
    mkdir -p "$room/rust/src" "$room/rust/.cargo"
    cp "$top/bench/languages/peer.rs" "$room/rust/src/main.rs"
    printf '%s\n' '[package]' 'name = "peer"' 'version = "0.1.0"' 'edition = "2021"' '[dependencies]' 'url = "2"' \
        "urlcheck = { path = \"$top/bindings/rust\" }" >"$room/rust/Cargo.toml"
    printf '[source.crates-io]\nreplace-with = "debian"\n[source.debian]\ndirectory = "%s"\n' "$registry" \
        >"$room/rust/.cargo/config.toml"
    (cd "$room/rust" && cargo build --release --offline --quiet) && "$room/target/release/peer" "$room/links" "$rounds"
}

in_go() {
    mkdir -p "$room/go"
    cp "$top/bench/languages/peer.go" "$room/go/"
    printf '%s\n' 'module peer' 'go 1.19' 'require yuccaeave.example/urlcheck v0.5.0' \
        "replace yuccaeave.example/urlcheck => $top/bindings/go" >"$room/go/go.mod"
    (cd "$room/go" && go build -o peer .) && "$room/go/peer" "$room/links" "$rounds"
}

in_java() {
    local jna=/usr/share/java/jna.jar files folder
    mapfile -t files < <(find "$top/bindings/java/src/main/java" -name '*.java')
    javac --release 8 -Xlint:-options -cp $jna -d "$room/java" "${files[@]}" "$top/bench/languages/Peer.java"
    java -Durlcheck.library="$library/lib/liburlcheck.so" -cp "$room/java:$jna" Peer "$room/links" "$rounds"
    for folder in "${JAVA_HOME:-}" /usr/lib/jvm/*; do
        [ -x "$folder/bin/javac" ] && "$folder/bin/javac" --release 22 -version >/dev/null 2>&1 || continue
        "$folder/bin/javac" -cp "$room/java" -d "$room/java22" "$top"/bindings/java/src/main/java22/*/*/*/*.java
        "$folder/bin/java" -Durlcheck.library="$library/lib/liburlcheck.so" --enable-native-access=ALL-UNNAMED \
            -cp "$room/java22:$room/java" Peer "$room/links" "$rounds"
        return
    done
}

in_cpp() {
    g++ -std=c++17 -O2 -I "$library/include" -I "$top/bindings/cpp" "$top/bench/languages/peer.cpp" \
        "$library/lib/liburlcheck.a" -o "$room/peer"
    "$room/peer" "$room/links" "$rounds"
}

: >"$room/rows"
if has_url; then in_rust >>"$room/rows"; else echo "Rust left out, since cargo or librust-url-dev is not installed"; fi
if command -v go >/dev/null; then in_go >>"$room/rows"; else echo "Go left out, since go is not installed"; fi
if command -v javac >/dev/null && [ -e /usr/share/java/jna.jar ]; then
    in_java >>"$room/rows"
else
    echo "Java left out, since javac or libjna-java is not installed"
fi
in_cpp >>"$room/rows"

awk -F'\t' -v valid="$valid" '
    BEGIN { printf "%-8s %-11s %8s  %-16s %8s %6s\n", "language", "call", "ns", "peer", "ns", "ratio" }
    { printf "%-8s %-11s %8s  %-16s %8s %6.2f\n", $1, $2, $3, $4, $5, $3 / $5 }
    $6 != valid { print "FAILED: " $1 " " $2 " accepts " $6 " links, and " valid " are valid"; failed = 1 }
    END { exit failed || NR == 0 }' "$room/rows"
