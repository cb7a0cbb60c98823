#!/usr/bin/env bash
# Runs the commands of bindings/INSTALL.md, and those of README, over a release folder, where no kit, no clone and no variable is at
# hand.
#   tools/exports/try_package.sh [FOLDER]    without FOLDER it writes a draft first
# The programs in C, C++, Rust and Python must print the same symbols, those of readelf.
set -euo pipefail
cd "$(dirname "$0")/../.."
room="$(mktemp -d)"
trap 'rm -rf "$room"' EXIT
dist="${1:-}"
if [ -z "$dist" ]; then
    dist="$room/draft"
    tools/exports/package.sh --draft "$dist"
fi
mkdir "$room/work"
cp -r "$dist" "$room/work/dist"

# The name of the wheel says which C libraries it runs with.
compgen -G "$room/work/dist/python/*-manylinux_*.whl" > /dev/null || { echo "the wheel isn't named for manylinux" >&2; exit 1; }

# The compilers alone: those of the system, and cargo's own folder, as a toolchain has it.
toolchain="$(dirname "$(rustc --print sysroot)/bin/cargo")"
path="$toolchain:/usr/bin:/bin"
[ -z "$(PATH="$path" command -v rt)" ] || { echo "rt is on the path $path" >&2; exit 1; }

# The commands of the page; what a program prints goes to a file by its number.
awk '/^```sh$/ { on = 1; next } /^```$/ { on = 0 } on' bindings/INSTALL.md > "$room/commands"
PATH="$path" command -v pkg-config > /dev/null || sed -i '/pkg-config/d' "$room/commands"
awk '/ \/bin\/ls$/ { sub(/\/bin\/ls$/, "\"$file\" > printed_" ++count) } { print }' "$room/commands" > "$room/work/commands"
[ "$(grep -c printed_ "$room/work/commands")" = 4 ] || { echo "the page runs other programs than four" >&2; exit 1; }

# Values and names as readelf has them, without the versions that it adds to names.
expected() {
    readelf --wide --symbols "$1" | awk '$1 ~ /^[0-9]+:$/ && $4 != "SECTION" && $8 != "" { sub(/@.*/, "", $8); print $2, $8 }' | sort
}

# What README shows, over a crate and a program in C. Installing the Debian package is for root; a draft may be without it.
mkdir "$room/readme"
ln -s "$room/work/dist" "$room/readme/dist"
grep '^    .*dist/' README.md > "$room/shown"
package="$(sed -n 's,^    sudo apt install \./,,p' "$room/shown")"
[ -n "$package" ] || { echo "README installs no Debian package" >&2; exit 1; }
if [ -n "${1:-}" ]; then compgen -G "$room/work/$package" > /dev/null || { echo "there is no $package" >&2; exit 1; }; fi
{
    echo 'cargo new --quiet --vcs none yours; cp dist/examples/symbols.rs yours/src/main.rs; cp dist/examples/symbols.c yours.c'
    sed '/sudo/d; s/YOURS\([/.]\)/yours\1/g; s/YOURS/yours_c/' "$room/shown"
    echo 'room/bin/python dist/examples/symbols.py /bin/ls > printed_1; ./yours_c /bin/ls > printed_2'
    echo 'cargo run --quiet --offline --manifest-path yours/Cargo.toml -- /bin/ls > printed_3'
} > "$room/readme/commands"
(cd "$room/readme" && env -i HOME="$room" PATH="$path" LC_ALL=C bash -euo pipefail commands) > "$room/said" 2>&1 || { tail "$room/said" >&2; exit 1; }
for number in 1 2 3; do diff <(sed 's/@.*//' "$room/readme/printed_$number" | sort) <(expected /bin/ls); done
echo "package: the commands of README"

for file in /bin/ls "$room/work/symbols_cpp"; do
    (cd "$room/work" && env -i HOME="$room" PATH="$path" LC_ALL=C file="$file" bash -euo pipefail commands)
    for number in 2 3 4; do cmp "$room/work/printed_1" "$room/work/printed_$number"; done
    diff <(sed 's/@.*//' "$room/work/printed_1" | sort) <(expected "$file") > "$room/difference" || { head "$room/difference"; exit 1; }
    echo "package: $(wc -l < "$room/work/printed_1") symbols of ${file##*/} from C, C++, Rust and Python"
    # The second file is one with a symbol table of all symbols; the programs are there already.
    sed -i '/venv\|pip install\|cargo new\|cargo add/d' "$room/work/commands"
done
