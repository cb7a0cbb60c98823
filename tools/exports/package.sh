#!/usr/bin/env bash
# Writes the release folder: the static library that `rt lib` proves, its header, the Rust crate, the Python wheel, the page
# for browsers, and a Debian package with these and the programs, which `rt ci` has built before.
#   tools/exports/package.sh [--draft] [FOLDER]    FOLDER is dist where it isn't named; what it held is gone
# Files that aren't committed are an error but for a draft, whose checksums say so, and so is a program that isn't built, or is older
# than its sources. A draft may take the library from the folder that XMAS_ELF_ARCHIVE names. After an error FOLDER is as it was.
set -euo pipefail
cd "$(dirname "$0")/../.."
if [ "${1:-}" = --help ]; then sed -n '2,6s/^# //p' tools/exports/package.sh; exit; fi
draft=""
[ "${1:-}" = --draft ] && { draft=" and changes to it: a draft"; shift; }
folder="$(realpath -m "${1:-dist}")"
target=x86_64-unknown-linux-gnu
changed="$(git status --porcelain)"
[ -z "$changed" ] || [ -n "$draft" ] || { printf 'these files differ from the commit:\n%s\n' "$changed" >&2; exit 1; }
# Only what is in the folder of a release before may go.
[ ! -e "$folder" ] || [ -e "$folder/SHA256SUMS" ] || { echo "$folder is there, and isn't a release" >&2; exit 1; }
version="$(sed -n 's/^version = "\(.*\)"/\1/p' bindings/rust/Cargo.toml)"
same_version() { grep -qx "$2" "$3" || { echo "the crate and $1 differ in their version" >&2; exit 1; }; }
same_version "the wheel" "version = \"$version\"" bindings/python/pyproject.toml
same_version "the programs" "pub const VERSION: &str = \"$version\";" crates/program_ends/src/lib.rt
same_version "the header" "#define XMAS_ELF_VERSION \"$version\"" bindings/include/xmas_elf.h
# A draft may be without the programs.
programs=yes
tools/exports/debian.py --built || { [ -n "$draft" ] || exit 1; programs=""; echo "package: a draft without the Debian package" >&2; }

room="$(mktemp -d)"
trap 'rm -rf "$room"' EXIT
if [ -n "$draft" ] && [ -n "${XMAS_ELF_ARCHIVE:-}" ]; then
    verdict="not asked: the library is that of XMAS_ELF_ARCHIVE"
else
    # `rt lib` takes the libraries that `rt ci` has built, where they have stamps.
    { tools/gate/built.py && (cd crates/elf_c && rt lib); } > "$room/log" 2>&1 || { tail -n 20 "$room/log" >&2; exit 1; }
    verdict="$(grep '^logic=proved ' "$room/log" | tail -n 1)"
    XMAS_ELF_ARCHIVE="$PWD/crates/elf_c/out"
fi
export XMAS_ELF_ARCHIVE

dist="$room/dist"
mkdir -p "$dist/lib/pkgconfig" "$dist/include" "$dist/c" "$dist/python" "$dist/rust/lib/$target"
cp "$XMAS_ELF_ARCHIVE/libelf_c.a" "$dist/lib/"
cp "$XMAS_ELF_ARCHIVE/libelf_c.a" "$dist/rust/lib/$target/"
cp bindings/include/* "$dist/include/"
cp bindings/c/README.md bindings/c/addresses.c bindings/c/dynamic.c bindings/c/find.c bindings/c/nm.c bindings/c/sizes.c bindings/cpp/nm.cpp "$dist/c/"
cp bindings/INSTALL.md "$dist/README.md"
cp -r bindings/python/README.md bindings/python/examples "$dist/python/"
cp LICENSE-APACHE LICENSE-MIT "$dist/"
cp LICENSE-APACHE LICENSE-MIT "$dist/rust/"
(cd bindings/rust && git ls-files -co --exclude-standard | while read -r file; do [ ! -f "$file" ] || cp --parents "$file" "$dist/rust/"; done)
cp -r bindings/examples "$dist/"
sed "s/@VERSION@/$version/" tools/exports/templates/xmas_elf.pc > "$dist/lib/pkgconfig/xmas_elf.pc"
python3 bindings/python/wheel_backend.py "$dist/python" > /dev/null
# The page for browsers, but for a draft over an archive that is at hand, where the kit may be missing.
if [ -z "$draft" ] || [ -n "${XMAS_ELF_MODULE:-}" ]; then
    tools/web/web.sh --build > /dev/null
    cp -r bindings/web/out/site "$dist/web"
fi
[ -z "$programs" ] || tools/exports/debian.py "$dist"

{
    echo "# version $version, commit $(git rev-parse HEAD)$draft"
    echo "# kit: $(rt version)"
    echo "# verdict: $verdict"
    cd "$dist"
    find . -type f ! -name SHA256SUMS -printf '%P\n' | LC_ALL=C sort | xargs -d '\n' sha256sum
} > "$dist/SHA256SUMS"
rm -rf "$folder"
mkdir -p "$(dirname "$folder")"
mv "$dist" "$folder"
echo "package: version $version in $folder"
