#!/usr/bin/env bash
# Proves and builds the passes by this library, `here/`, as a static one, in a copy of the repository with that crate more.
#
#     bench/library.sh ROOM [CRATE..]
#
# It writes ROOM/repository/crates/here/out/libhere.a. Crates named behind are in the copy too.
set -euo pipefail
here="$(cd "$(dirname "$0")" && pwd)"
top="$(dirname "$here")"
mkdir -p "$1"
room="$(cd "$1" && pwd)"
crates=(elf_base elf_records xmas_elf elf_linking elf_library elf_addresses elf_loading "${@:2}")

copy="$room/repository"
rm -rf "$copy/crates/here/src"
mkdir -p "$copy/crates/here/src"
for crate in "${crates[@]}"; do
    mkdir -p "$copy/crates/$crate"
    find "$copy/crates/$crate" -mindepth 1 -maxdepth 1 ! -name out -exec rm -rf {} +
    find "$top/crates/$crate" -mindepth 1 -maxdepth 1 ! -name out ! -name must-fail ! -name wrong-bodies \
        -exec cp -r {} "$copy/crates/$crate/" \;
    # What the repository has proved isn't proved again: of a library that is its rlib.
    out="$top/crates/$crate/out"
    if [ -d "$out" ] && [ ! -d "$copy/crates/$crate/out" ]; then
        mkdir "$copy/crates/$crate/out"
        if [ -d "$out/rlib" ]; then out="$out/rlib"; else out="$out/."; fi
        cp -r "$out" "$copy/crates/$crate/out/"
    fi
done
# `rt ci` wants each .rt file to be one of a crate of the repository, so these have another name there.
for file in "$here"/here/src/*.rt.in; do
    cp "$file" "$copy/crates/here/src/$(basename "$file" .in)"
done
named="$(IFS='|' && echo "${crates[*]}")"
grep -E "^($named)( staticlib)?:" "$top/crates.txt" > "$copy/crates.txt"
echo 'here staticlib: elf_base elf_linking elf_addresses elf_loading xmas_elf' >> "$copy/crates.txt"
cp "$top/HANDLES" "$copy/"
[ -d "$copy/.git" ] || git init -q "$copy"
(cd "$copy/crates/here" && rt lib) > "$room/library.log" 2>&1 || { tail -30 "$room/library.log" >&2; exit 1; }
