# Rust: the crate, offline, with and without its feature; its tests, the tests of its documentation, clippy, rustdoc, rustfmt; the
# archive, and the shared library by pkg-config. Debian has the sources of what it depends on. Sourced by tests/runs/languages.sh.

# build_rust : the answers by the copy of the crate
build_rust() {
    (cd "$room/rust" && cargo build --offline --example answers)
}

# (Debian's sources take the place of the registry, for each folder below)
registry=/usr/share/cargo/registry
mkdir "$room/.cargo"
printf '%s\n' '[source.crates-io]' 'replace-with = "debian"' '[source.debian]' "directory = \"$registry\"" >"$room/.cargo/config.toml"

if here Rust cargo && with Rust librust-serde-json-dev compgen -G "$registry/serde_json-*"; then
    # (errors of programs that are meant to fail need no trace)
    export CARGO_TARGET_DIR=$room/target URLCHECK_LIB_DIR=$library/lib RUST_BACKTRACE=0
    copied rust
    mkdir -p "$room/rust/examples"
    cp answers.rs told.rs "$room/rust/examples/"
    answers_rust=$room/target/debug/examples/answers
    quiet 'cargo build' build_rust
    answering Rust "$answers_rust"
    (
        cd "$room/rust"
        quiet 'the tests of the crate' cargo test --offline --tests
        quiet 'the tests with serde' cargo test --offline --features serde --tests
        quiet 'the tests of its documentation' cargo test --offline --doc
        ! with 'Rust by rustfmt' rustfmt cargo fmt --version || quiet 'rustfmt' cargo fmt --check
        ! with 'Rust by clippy' clippy cargo clippy --version ||
            quiet 'clippy' cargo clippy --offline --all-targets --all-features -- -D warnings
        RUSTDOCFLAGS='-D warnings' quiet 'rustdoc' cargo doc --offline --no-deps
    )
    has_version rust/Cargo.toml 'version = "@"'
    spoiled Rust build_rust rust src/violation.rs \
        's/byte_place: found.byte_place, place: found.place/byte_place: found.place, place: found.byte_place/' \
        "$answers_rust"
    spoiled Rust build_rust rust src/profile.rs 's/        self as u32/        self as u32 \& 1/' "$answers_rust"
    spoiled Rust build_rust rust src/parts.rs 's/span.present.then(/(span.length > 0).then(/' "$answers_rust"

    serialized=$room/rust/src/serialized.rs
    cp "$serialized" "$room/kept"
    for edit in 's/"place": self.place()/"place": self.byte_place()/' 's/"port": self.port()/"port": self.host()/'; do
        sed "$edit" "$room/kept" >"$serialized"
        ! cmp -s "$room/kept" "$serialized" || fail "Rust: the edit $edit changes nothing"
        ! (cd "$room/rust" && cargo test --offline --features serde --test json) >"$room/said" 2>&1 ||
            fail "Rust: a spoiled copy serializes the same: $edit"
        grep -q '^test result: FAILED' "$room/said" || fail "Rust: a copy isn't built: $edit: $(cat "$room/said")"
        spoils=$((spoils + 1))
    done
    cp "$room/kept" "$serialized"

    # If no folder is named, pkg-config is asked; a folder without a library is refused.
    (
        cd "$room/rust"
        quiet 'cargo by pkg-config' env -u URLCHECK_LIB_DIR CARGO_TARGET_DIR="$room/shared" \
            cargo build --offline --example answers
        quiet 'the shared library' same "$room/shared/debug/examples/answers"
        quiet 'cargo for told.rs' env -u URLCHECK_LIB_DIR CARGO_TARGET_DIR="$room/shared" cargo build --offline --example told
        quiet 'what the crate says of odd answers' env LD_PRELOAD="$told" "$room/shared/debug/examples/told"
        ! URLCHECK_LIB_DIR=$room/rust cargo build --offline >"$room/said" 2>&1 || fail 'a folder without a library'
        grep -qFx "  URLCHECK_LIB_DIR: $room/rust has no liburlcheck" "$room/said" || fail 'no word on a folder without a library'
        if env -u URLCHECK_LIB_DIR PKG_CONFIG_PATH= cargo build --offline >"$room/said" 2>&1; then
            pkg-config --exists urlcheck || fail 'no library at all'
        else
            grep -qF "  URLCHECK_LIB_DIR isn't set, and pkg-config has no liburlcheck 0.5: " "$room/said" ||
                fail 'no word on a library that is missing'
        fi
        ! env -i PATH=/nonexistent "$(compgen -G "$room/shared/debug/build/urlcheck-*/build-script-build" | head -n 1)" \
            >"$room/said" 2>&1 || fail 'a library is found without pkg-config'
        grep -qFx "URLCHECK_LIB_DIR isn't set, and pkg-config can't be run: No such file or directory (os error 2)" \
            "$room/said" || fail 'no word on pkg-config'
    )
    mkdir -p "$room/guide_rust/src"
    guide rust rust guide_rust src/main.rs
    python3 guide.py "$top/docs/guides/rust.md" toml "$room/dependency"
    { printf '[package]\nname = "program"\nversion = "1.0.0"\nedition = "2021"\n\n' && cat "$room/dependency"; } \
        >"$room/guide_rust/Cargo.toml"
    unset URLCHECK_LIB_DIR
    as_told rust guide_rust
fi
