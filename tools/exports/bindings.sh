#!/usr/bin/env bash
# Builds and tests what calls the static library `elf_c` from C, C++ and Rust.
#   tools/exports/bindings.sh            the programs in C and C++, each export, the Rust crate with its own tests, its package
#                                and its pages: no registry
#   tools/exports/bindings.sh --compare  besides, all results beside those of `object`, of Debian's librust-object-dev, over the
#                                files of the system
#   tools/exports/bindings.sh --valgrind besides, the tests of the Rust crate and the C example under valgrind, which tells of
#                                reads and writes outside of memory that is the program's
# XMAS_ELF_ARCHIVE: a folder that holds libelf_c.a; where it isn't set, `rt lib` makes it.
set -euo pipefail
cd "$(dirname "$0")/../.."
case "${1:-}" in
    --compare | --valgrind | "") ;;
    --help) sed -n '2,9s/^# //p' tools/exports/bindings.sh; exit ;;
    *) sed -n '2,9s/^# //p' tools/exports/bindings.sh >&2; exit 2 ;;
esac
room="$(mktemp -d)"
trap 'rm -rf "$room"' EXIT

tools/exports/declarations.py --check
if [ -z "${XMAS_ELF_ARCHIVE:-}" ]; then
    # One job takes the fewest processor seconds.
    (cd crates/elf_c && rt lib --jobs 1) > "$room/lib" 2>&1 || { tail -n 20 "$room/lib"; exit 1; }
    XMAS_ELF_ARCHIVE="$PWD/crates/elf_c/out"
fi
export XMAS_ELF_ARCHIVE CARGO_TARGET_DIR="$room/target"
archive="$XMAS_ELF_ARCHIVE/libelf_c.a"
strict=(-O2 -Wall -Wextra -Werror -Wpedantic -Ibindings/include)

# Runs lines of Python with what the tools have.
python() { PYTHONPATH=tools python3 -c "$@"; }

# The names of readelf but for the sections, whose names it shows for theirs. It adds versions after an `@`, which a few names have too.
names() { readelf --wide --symbols "$1" | awk '$1 ~ /^[0-9]+:$/ && $4 != "SECTION" && $8 != "" { sub(/@.*/, "", $8); print $8 }' | sort; }

# What the header says of the archive: it has the exports of the list, needs `memcpy`, `memmove` and `memset` alone, keeps nothing (no section is
# writable), has no unwind tables, and no absolute addresses in code.
diff <(nm --defined-only --extern-only "$archive" | awk 'NF == 3 { print $3 }' | sort) \
    <(python 'from exports import listing; print(*(it.export for it in listing.read().functions), sep="\n")' | sort)
diff <(nm --undefined-only "$archive" | awk '$1 == "U" { print $2 }' | grep -vxE 'mem(cpy|move|set)') /dev/null
readelf --wide --sections --relocs "$archive" > "$room/archive"
if grep -E 'eh_frame|R_X86_64_(32|32S|64) | WAT? ' "$room/archive"; then exit 1; fi

for program in nm find dynamic addresses sizes speed; do
    gcc -std=c11 "${strict[@]}" "bindings/c/$program.c" "$archive" -o "$room/${program}_c"
done
cxx=(g++)
if command -v clang++ > /dev/null; then cxx+=(clang++); else echo "bindings: no clang here: by gcc alone"; fi
for compiler in "${cxx[@]}"; do
    "$compiler" -std=c++17 "${strict[@]}" -Wconversion bindings/cpp/nm.cpp "$archive" -o "$room/nm_$compiler"
    for program in dump memory search sizes differences; do
        "$compiler" -std=c++20 "${strict[@]}" -Wconversion "bindings/cpp/$program.cpp" "$archive" -o "$room/$program"
    done
    # C++11 has no [[nodiscard]]; a struct may have its zero as its value.
    echo '#include "xmas_elf.h"' | "$compiler" -std=c++11 "${strict[@]}" -Wconversion -x c++ -fsyntax-only -
    echo '#include "xmas_elf.h"
        xmas_elf_counts_t counts{}; xmas_elf_section_t section{}; xmas_elf_range_t range = {0, 1};' |
        "$compiler" -std=c++20 "${strict[@]}" -x c++ -fsyntax-only -
done
# Each export, over a program with both kinds of hash tables, packed relocations and a version of its own: of gcc, and of clang with
# its checks at run time.
echo 'EVERY_1 { every_finds_this; };' > "$room/every.map"
both=(-rdynamic -Wl,--hash-style=both -Wl,--build-id -Wl,-z,pack-relative-relocs -Wl,--version-script="$room/every.map")
gcc -std=c11 "${strict[@]}" "${both[@]}" bindings/c/every.c "$archive" -o "$room/every_gcc"
"$room/every_gcc" "$room/every_gcc"
if command -v clang > /dev/null; then
    clang -std=c11 "${strict[@]}" "${both[@]}" -fsanitize=address,undefined bindings/c/every.c "$archive" -o "$room/every_clang"
    "$room/every_clang" "$room/every_gcc"
fi
# The numbers of the standard, beside those of the C library.
python 'from exports import listing
print("#include <elf.h>", *(f"_Static_assert({it.name} == {it.value}, \"{it.name}\");" for it in listing.constants()), sep="\n")' |
    gcc -std=c11 -x c -fsyntax-only -
# The programs of the page.
awk '/^```c$/ { on = 1; next } /^```$/ { on = 0 } on' bindings/c/README.md > "$room/shown.c"
gcc -std=c11 "${strict[@]}" "$room/shown.c" "$archive" -o "$room/names_c"
# The page's sizes of symbols, beside those of the program in C++.
gcc -std=c11 "${strict[@]}" -Dmain=print_all -c "$room/shown.c" -o "$room/shown.o"
gcc -std=c11 "${strict[@]}" bindings/c/tests/sizes.c "$room/shown.o" "$archive" -o "$room/sizes_of_page"
for file in "$room/nm_c" "$room/dump"; do
    diff <("$room/sizes_of_page" < "$file") <("$room/sizes" "$file" | awk 'NF == 2') > "$room/difference" || { head "$room/difference"; exit 1; }
done
awk '/^```cpp$/ { on = 1; next } /^```$/ { on = 0 } on' bindings/c/README.md > "$room/shown.cpp"
g++ -std=c++17 "${strict[@]}" -Wconversion "$room/shown.cpp" "$archive" -o "$room/names_cpp"
zlib=/lib/x86_64-linux-gnu/libz.so.1
diff <("$room/names_cpp" $zlib | grep '^lib.*\.so') <(readelf --wide --dynamic $zlib | sed -n 's/.*(NEEDED).*\[\(.*\)\]$/\1/p')
cargo build --quiet --offline --release --manifest-path bindings/rust/Cargo.toml --lib --examples
# The program of the crate's page, of a path that is given, and the example, as users build them.
awk '/^```rust$/ { on = 1; next } /^```$/ { on = 0 } on' bindings/rust/README.md |
    sed 's|"/proc/self/exe"|std::env::args_os().nth(1).expect("a path")|' > "$room/names.rs"
for program in "$room/names.rs" bindings/examples/symbols.rs; do
    rustc --edition 2021 -O "$program" --extern "xmas_elf_proved=$CARGO_TARGET_DIR/release/libxmas_elf_proved.rlib" \
        -o "$room/$(basename "$program" .rs)_rs"
done
# C, C++ and Rust beside nm and readelf, over 300 files. A path that can't be opened is named.
tools/compare/dump.py
for program in "$room"/{nm_c,find_c,dynamic_c,addresses_c,sizes_c,nm_g++,dump,memory,sizes} "$CARGO_TARGET_DIR"/release/examples/{nm,find,dump,addresses,sizes}; do
    { "$program" /no/such/file 2>&1 || true; } | grep -q '^/no/such/file: No such file or directory' ||
        { echo "$program doesn't name its path"; exit 1; }
done
# The mappings of a program beside those of its process, in which those of zeros have no path; and an address in no symbol.
gcc tools/compare/sources/mapped.c -o "$room/mapped" -Wl,-z,norelro
mapped() {
    local base="" range rights offset
    "$room/mapped" | grep "$1\$" | while read -r range rights offset _; do
        base="${base:-$((16#${range%-*}))}"
        printf '%x-%x %s %x\n' $((16#${range%-*} - base)) $((16#${range#*-} - base)) "${rights:0:3}" $((16#$offset))
    done
}
"$room/memory" "$room/mapped" | awk '$3 != 0 || NR == 1' | diff - <(mapped "$room/mapped")
for program in "$room/addresses_c" "$CARGO_TARGET_DIR/release/examples/addresses"; do diff <("$program" "$room/mapped" 0) <(echo '?'); done
# The libraries of programs, beside those that the loader lists.
for program in /bin/ls /bin/bash /usr/bin/env; do
    while read -r name _ path; do
        grep -qF "$name => $path " <(LD_TRACE_LOADED_OBJECTS=1 /lib64/ld-linux-x86-64.so.2 "$program") || { echo "$program: $name => $path"; exit 1; }
    done < <("$room/search" "$program" | grep '=>')
done
# Calls for several objects of C++ throw the index of the one with the error.
g++ -std=c++17 "${strict[@]}" -Wconversion bindings/cpp/tests/objects.cpp "$archive" -o "$room/objects"
"$room/objects" "$room/mapped"
# Programs that the example in C loads.
tools/exports/loading.sh "$XMAS_ELF_ARCHIVE"
# Both kinds of hash tables, a file's own name and its folders, and libraries with many versions.
echo 'int one(void) { return 1; }' |
    gcc -shared -fPIC -x c - -o "$room/libnamed.so" -Wl,-soname,libnamed.so.1 -Wl,-rpath,/a:/b -Wl,--enable-new-dtags
# The tables of both classes and both orders, with and without addends, packed ones too, and notes of both classes.
tables=()
if command -v clang > /dev/null && command -v ld.lld > /dev/null; then
    for machine in i386 x86_64 powerpc powerpc64; do
        clang "--target=$machine-linux-gnu" -fPIC -c tools/compare/sources/tables.c -o "$room/tables.o"
        ld.lld -shared --build-id --pack-dyn-relocs=relr "$room/tables.o" -o "$room/tables_$machine.so"
        tables+=("$room/tables_$machine.so")
    done
fi
tools/compare/dump.py "$room/every_gcc" "$room/libnamed.so" "${tables[@]}" /lib/x86_64-linux-gnu/lib{c,m}.so.6
for file in "$room/nm_c" /lib/x86_64-linux-gnu/libc.so.6; do
    "$room/nm_c" "$file" > "$room/of_c"
    "$CARGO_TARGET_DIR/release/examples/nm" "$file" | cmp - "$room/of_c"
    for compiler in "${cxx[@]}"; do "$room/nm_$compiler" "$file" | cmp - "$room/of_c"; done
    "$room/names_c" < "$file" > "$room/of_page"
    diff <(sed 's/@.*//' "$room/of_page" | grep . | sort) <(names "$file") > "$room/difference" || { head "$room/difference"; exit 1; }
    "$room/find_c" "$file" malloc qsort no_such_name > "$room/of_c"
    "$CARGO_TARGET_DIR/release/examples/find" "$file" malloc qsort no_such_name | cmp - "$room/of_c"
done
# What differs in two programs, beside elfsize where it is built; and a debug file by its link.
elfsize="$PWD/crates/elfsize/out/elfsize"
for words in "" --symbols; do
    asked=(${words:+"$words"} "$room/nm_c" "$room/find_c")
    "$room/differences" "${asked[@]}" > "$room/of_cpp"
    "$CARGO_TARGET_DIR/release/examples/differences" "${asked[@]}" | cmp - "$room/of_cpp"
    [ ! -x "$elfsize" ] || "$elfsize" --diff "${asked[@]}" | sed '/^all parts$/,$d' | cmp - "$room/of_cpp"
done
objcopy --only-keep-debug "$room/every_gcc" "$room/every.debug"
objcopy --strip-all --add-gnu-debuglink="$room/every.debug" "$room/every_gcc" "$room/every_stripped"
"$room/differences" --debug "$room/every_stripped" "$room" | grep -q '/every.debug: debug file$'
gcc "${strict[@]}" bindings/examples/symbols.c "$archive" -o "$room/symbols_c"
g++ "${strict[@]}" bindings/examples/symbols.cpp "$archive" -o "$room/symbols_cpp"
gcc -std=c11 "${strict[@]}" bindings/examples/loads.c "$archive" -o "$room/loads_c"
# Tasks of new users beside the tools that they know, and over files of which parts are missing.
bindings/c/tests/tasks.py "$room"
mkdir "$room/damaged"
python 'import pathlib, sys
from compare import damage
for it in range(1000): pathlib.Path(sys.argv[1], str(it)).write_bytes(damage.damaged(1, it))' "$room/damaged"
# The tests want of each call over these a status that the list has for it.
XMAS_ELF_DAMAGED="$room/damaged" \
    cargo test --quiet --offline --release --manifest-path bindings/rust/Cargo.toml -- --show-output > "$room/tests" ||
    { tail -n 50 "$room/tests"; exit 1; }
grep ' files, ' "$room/tests"
cargo build --quiet --offline --release --no-default-features --manifest-path bindings/rust/Cargo.toml
echo "bindings: the programs in C and C++ and the Rust crate agree with readelf"

# The crate as a release has it: with the archive inside it builds by itself. Its pages need no archive.
cp -r bindings/rust "$room/crate"
cp LICENSE-APACHE LICENSE-MIT "$room/crate/"
rm -f "$room/crate/Cargo.lock"
mkdir -p "$room/crate/lib/x86_64-unknown-linux-gnu"
cp "$archive" "$room/crate/lib/x86_64-unknown-linux-gnu/"
# To publish it is tried with a registry of its own, an empty one; crates.io takes 10 MB.
git init --quiet "$room/index"
echo '{"dl": "file:///none", "api": "file:///none"}' > "$room/index/config.json"
git -C "$room/index" add .
git -C "$room/index" -c user.name=none -c user.email=none -c commit.gpgsign=false commit --quiet --message index
(cd "$room/crate" && unset XMAS_ELF_ARCHIVE && cargo publish --dry-run --quiet --allow-dirty --index "file://$room/index" 2> "$room/published" &&
    cargo package --no-verify --quiet --offline --allow-dirty) || { cat "$room/published"; exit 1; }
packed="$(ls "$CARGO_TARGET_DIR"/package/xmas-elf-proved-*.crate)"
[ "$(stat --format %s "$packed")" -lt 10000000 ] || { echo "the package is too large for crates.io"; exit 1; }
tar -tf "$packed" > "$room/packed"
for wanted in README.md LICENSE-MIT LICENSE-APACHE lib/x86_64-unknown-linux-gnu/libelf_c.a src/ffi.rs; do
    grep -q "/$wanted\$" "$room/packed" || { echo "the package has no $wanted"; exit 1; }
done
rm -r "$room/crate/lib"
(cd "$room/crate" && env -u XMAS_ELF_ARCHIVE DOCS_RS=1 RUSTDOCFLAGS="--cfg docsrs -D warnings" cargo doc --quiet --offline --no-deps)
# Where the archive is missing, the build says so and what helps.
script="$(find "$CARGO_TARGET_DIR/release/build" -path '*xmas-elf-proved*' -name build-script-build | head -n 1)"
fails() { # ARCHITECTURE FOLDER WORD..
    local said folder="$2"
    said="$(env -i PATH=/nowhere TARGET="$1-test" CARGO_CFG_TARGET_ARCH="$1" CARGO_CFG_TARGET_OS=linux CARGO_CFG_TARGET_POINTER_WIDTH=64 \
        CARGO_MANIFEST_DIR="$folder" "$script" 2>&1)" && { echo "built without an archive: $said"; exit 1; }
    for word in "${@:3}"; do grep -qF -- "$word" <<< "$said" || { echo "no $word in: $said"; exit 1; }; done
}
fails x86_64 "$PWD/bindings/rust" libelf_c.a '`rt`' XMAS_ELF_ARCHIVE 'rt lib'
fails x86_64 "$room/crate" libelf_c.a 'is missing' XMAS_ELF_ARCHIVE 'rt lib'
fails aarch64 "$room/crate" 'the target is aarch64-test'
echo "bindings: the Rust crate builds from its package"

if [ "${1:-}" = --compare ]; then
    (cd bindings/compare && cargo build --quiet --offline --release)
    # Both classes and both orders, too.
    mkdir "$room/worked"
    python 'import itertools, pathlib, sys
from compare import damage
for wide, order in itertools.product((True, False), ("little", "big")):
    pathlib.Path(sys.argv[1], f"{wide}-{order}").write_bytes(damage.worked(wide, order))' "$room/worked"
    "$CARGO_TARGET_DIR/release/compare" "$room"/worked/* /lib/x86_64-linux-gnu/*.so* /usr/bin/*
fi

if [ "${1:-}" = --valgrind ]; then
    watched=(valgrind --quiet --error-exitcode=9)
    export CARGO_TARGET_X86_64_UNKNOWN_LINUX_GNU_RUNNER="${watched[*]}"
    XMAS_ELF_FILES=20 cargo test --quiet --offline --release --manifest-path bindings/rust/Cargo.toml --tests
    "${watched[@]}" "$room/nm_c" /lib/x86_64-linux-gnu/libc.so.6 > "$room/of_c"
    echo "bindings: valgrind finds no fault"
fi
