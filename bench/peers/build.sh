# shellcheck shell=bash
# Sourced by bench/verdicts.sh and bench/links.sh: how the drivers of their peers and of the library for C are
# built. `$top` is the top of this repository, and `$registry` a folder with sources of crates.
registry=/usr/share/cargo/registry

# build_ada FOLDER PROGRAM : Ada's driver, over the sources of a release
build_ada() {
    command -v g++ >/dev/null || { echo 'Ada is built by g++'; return 1; }
    g++ -std=c++20 -O3 -march=x86-64-v2 -I"$1/include" -I"$1/src" -o "$2" "${top:?}/bench/peers/ada.cpp" "$1/src/ada.cpp"
}

# build_c LIBRARY PROGRAM : the driver of the library for C, over what tools/build-library wrote
build_c() {
    gcc -std=c99 -O2 -Wall -Wextra -Werror -I "$1/include" "$top/bench/peers/library.c" "$1/lib/liburlcheck.a" -o "$2"
}

# has_url : whether the crate `url` of Debian is at hand
has_url() {
    command -v cargo >/dev/null && compgen -G "$registry/url-*" >/dev/null
}

# build_url FOLDER DRIVER : a driver of the crate `url`, which is target/release/peer in the folder
build_url() {
    mkdir -p "$1/src" "$1/.cargo"
    cp "$top/bench/peers/$2" "$1/src/main.rs"
    printf '[package]\nname = "peer"\nversion = "0.1.0"\nedition = "2021"\n[dependencies]\nurl = "2"\n' >"$1/Cargo.toml"
    printf '[source.crates-io]\nreplace-with = "debian"\n[source.debian]\ndirectory = "%s"\n' "$registry" \
        >"$1/.cargo/config.toml"
    (cd "$1" && cargo build --release --offline --quiet) 2>"$1/said" ||
        { echo "without url: $(tail -n 1 "$1/said")"; return 1; }
}
