#!/usr/bin/env bash
# packaged.sh PACKAGES TARGET PROGRAM : what release/build-packages has written into the folder PACKAGES for another Linux, under qemu:
# the packages for Debian, the archive, the program as one file, the library by a program in C, and the wheel by a Python of that
# system, as far as Debian hands one out. TARGET is aarch64 or riscv64, and PROGRAM the program for x86-64, with which answers
# are compared.
set -euo pipefail
packages=$(realpath "$1") target=$2 program=$(realpath "$3")
cd "$(dirname "$(realpath "$0")")/../../.."
part="platforms: the packages for $target"
case $target in
    aarch64) architecture=arm64 machine=AArch64 glibc=2.17 ;;
    riscv64) architecture=riscv64 machine=RISC-V glibc=2.27 ;;
    *) echo 'usage: tests/runs/platforms/packaged.sh PACKAGES TARGET PROGRAM' >&2; exit 2 ;;
esac
cross=$target-linux-gnu- emulated=(qemu-"$target" -L /usr/"$target"-linux-gnu)
room=$(mktemp -d)
trap 'rm -rf "$room"' EXIT
version=$(cat VERSION)
name=urlcheck-$version
export PYTHONDONTWRITEBYTECODE=1

fail() {
    echo "FAILED: $part: $*"
    exit 1
}

# ---- the packages for Debian, and the archive, as they are unpacked

for package in urlcheck liburlcheck0.5 liburlcheck-dev python3-urlcheck; do
    file=$packages/${package}_${version}_$architecture.deb
    [ "$(dpkg-deb -f "$file" Architecture)" = $architecture ] || fail "$package is for another machine"
    dpkg -x "$file" "$room/unpacked"
done
tar -C "$room" -xzf "$packages/$name-$target-linux.tar.gz"
wheel=$packages/$name-cp38-abi3-manylinux_${glibc/./_}_$target.whl
[ -f "$wheel" ] || fail "there is no wheel of that name: $wheel"
python3 -m pip install --quiet --no-deps --no-index --only-binary=:all: --implementation cp --python-version 3.8 --abi abi3 \
    --platform "manylinux_${glibc/./_}_$target" --target "$room/site" "$wheel" 2>"$room/said" ||
    { cat "$room/said"; fail "pip doesn't take the wheel"; }

# Each file of code is for that machine, and what is in the wheel needs no newer glibc than its name says.
count=0
while IFS= read -r file; do
    [ "$(head -c 4 "$file" | tr -d '\0')" = $'\x7fELF' ] || continue
    "${cross}readelf" -h "$file" | grep -q "Machine: *$machine\$" || fail "$file is code for another machine"
    count=$((count + 1))
done < <(find "$room/unpacked" "$room/$name" "$room/site" -type f)
[ $count = 8 ] || fail "there are $count files of code, and not 8"
. tools/builds.sh
found=$(OBJDUMP=${cross}objdump glibc_of "$room/site/urlcheck/_native.abi3.so")
[ "$(printf '%s\n' "$found" $glibc | sort -V | tail -n 1)" = $glibc ] || fail "the wheel needs glibc $found"

# ---- the programs

cp "$packages/$name-$target-linux" "$room/alone"
chmod 755 "$room/alone"
for file in unpacked/usr/bin/urlcheck "$name/bin/urlcheck" site/bin/urlcheck alone; do
    "${emulated[@]}" "$room/$file" -V | cmp - <(echo "urlcheck $version") || fail "$file"
    "${emulated[@]}" "$room/$file" vectors tests/vectors/parser.json | grep -q ' fail 0$' || fail "$file vectors"
done
gzip -dc "$room/unpacked/usr/share/man/man1/urlcheck.1.gz" | cmp - docs/share/man/urlcheck.1 || fail 'the manual page'

# ---- the library, by the program of the guide on C

python3 tests/runs/library/programs.py "$PWD" "$room"
export PKG_CONFIG_PATH=$room/$name/lib/pkgconfig
read -ra flags <<<"$(pkg-config --cflags --libs urlcheck)"
"${cross}gcc" "$room/page.c" "${flags[@]}" -o "$room/page"
{ "${emulated[@]}" -E LD_LIBRARY_PATH="$room/unpacked/usr/lib/$target-linux-gnu:/usr/$target-linux-gnu/lib" "$room/page" ||
    [ $? = 1 ]; } | cmp - "$room/page.c.out" || fail 'the program in C'
echo "$part: $count files of code; the programs and the library work"

# ---- the wheel, by a Python of that system

if [ "$target" != aarch64 ]; then
    echo "$part: the wheel isn't tried, since Debian 12 has no Python for $target"
elif python=$(bash tests/runs/platforms/python.sh "$room/python"); then
    python3 tests/runs/library/cases.py pack "$room/cases" tests/vectors/*.json
    own=(qemu-aarch64 -L "$room/python/unpacked" -E PYTHONPATH="$room/site" "$python")
    "${own[@]}" "$room/page.py" | cmp - "$room/page.py.out" || fail 'the program in Python'
    "${own[@]}" tests/runs/library/answers.py "$room/cases" >"$room/said" || fail 'the answers in Python'
    python3 tests/runs/library/cases.py compare "$program" "$room/said" tests/vectors/*.json
    echo "$part: the wheel works, by $(basename "$python") for $target"
else
    echo "$part: the wheel isn't tried, since there is no Python for $target"
fi
