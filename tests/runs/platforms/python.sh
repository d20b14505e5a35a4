#!/usr/bin/env bash
# python.sh FOLDER : unpacks Debian's Python for Linux on ARM below FOLDER/unpacked, where qemu runs it, and says where the program
# is. The lists and the packages are fetched into FOLDER, too, and the system's own aren't touched. The status is 1 where that
# can't be had here.
set -euo pipefail
mkdir -p "$1"/{lists,archives}/partial "$1"/{debs,unpacked}
folder=$(realpath "$1")
for_arm=(-o APT::Architecture=arm64 -o APT::Architectures=arm64 -o Dir::State::lists="$folder/lists" -o Dir::Cache="$folder"
    -o Dir::State::status=/dev/null -o Debug::NoLocking=1 -o APT::Sandbox::User=root)

# quietly COMMAND.. : it has to go well
quietly() {
    "$@" >"$folder/said" 2>&1 || { echo "python.sh: $(tail -n 1 "$folder/said")" >&2; exit 1; }
}

quietly apt-get "${for_arm[@]}" update
version=$(apt-cache "${for_arm[@]}" depends python3-minimal | sed -n 's/^ *[A-Za-z]*: \(python3\.[0-9]*\)-minimal$/\1/p')
cd "$folder/debs"
quietly apt-get "${for_arm[@]}" download "$version-minimal" "lib$version-minimal" "lib$version-stdlib" libc6 libexpat1 zlib1g
for package in *.deb; do quietly dpkg -x "$package" "$folder/unpacked"; done
echo "$folder/unpacked/usr/bin/$version"
