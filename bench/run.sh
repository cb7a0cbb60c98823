#!/usr/bin/env bash
# Measures this library beside its peers, in one process, and prints the table; README.md here says more.
#
#     bench/run.sh [--room FOLDER] [--sources FOLDER] [--runs N] [--seconds S] [--large FILE] [--paste] [--growth] [--programs ELFINFO] [--bindings]
set -euo pipefail
here="$(cd "$(dirname "$0")" && pwd)"
top="$(dirname "$here")"
room="${TMPDIR:-/tmp}/xmas_elf_bench"
debian=/usr/share/cargo/registry
sources="" runs=3 seconds=0.3 large="" paste="" programs="" growth="" bindings=""
while [ $# -gt 0 ]; do
    case "$1" in
        --room) room="$2"; shift ;;
        --sources) sources="$(cd "$2" && pwd)"; shift ;;
        --runs) runs="$2"; shift ;;
        --seconds) seconds="$2"; shift ;;
        --large) large="$2"; shift ;;
        --paste) paste=1 ;;
        --programs) programs="$(realpath "$2")"; shift ;;
        --growth) growth=growth ;;
        --bindings) bindings="elf_search elf_debug elf_c" ;;
        *) sed -n '2,5s/^# \{0,1\}//p' "$0" >&2; exit 2 ;;
    esac
    shift
done
mkdir -p "$room"
room="$(cd "$room" && pwd)"

"$here/library.sh" "$room" $bindings
copy="$room/repository"

# The peers, from Cargo's registry or from a folder with their sources.
rm -rf "$room/peers"
cp -r "$here/peers" "$room/peers"
if [ -n "$sources" ]; then
    mkdir -p "$room/peers/.cargo"
    {
        echo '[patch.crates-io]'
        for folder in "$sources"/*/; do
            name="$(basename "$folder")"
            echo "$name = { path = \"$(cd "$folder" && pwd -P)\" }"
        done
        # What the folder lacks, from Debian's packages.
        if [ -d "$debian" ]; then
            printf '[source.crates-io]\nreplace-with = "debian"\n[source.debian]\ndirectory = "%s"\n' "$debian"
        fi
        echo '[net]'
        echo 'offline = true'
    } > "$room/peers/.cargo/config.toml"
fi
export HERE="$copy/crates/here/out" CARGO_TARGET_DIR="$room/target"
# The level of processor that the kit builds for, for all.
export RUSTFLAGS="-C target-cpu=x86-64-v2 --cap-lints warn"
(cd "$room/peers" && cargo build --release) > "$room/peers.log" 2>&1 || { tail -30 "$room/peers.log" >&2; exit 1; }
bench="$room/target/release/bench"

"$here/files.sh" "$room/files" $growth > "$room/files.log" 2>&1 || { tail "$room/files.log" >&2; exit 1; }
if [ -z "$large" ]; then
    large="$(find "$(rustc --print sysroot)/lib" -maxdepth 1 -name 'librustc_driver-*.so' | head -n 1)"
fi
groups=()
[ -z "$large" ] || groups+=("large=$large")
for group in sections exports; do
    groups+=("$group=$(find "$room/files" -name "$group.*")")
done
groups+=("dynamic=$room/files/dynamic.o" "notes=$room/files/notes.o")
# The C library: its names have versions.
groups+=("versions=$(realpath "$(gcc -print-file-name=libc.so.6)")")

# Where one contender results something else, the times would be of different work.
"$bench" --results "${groups[@]}"
for run in $(seq "$runs"); do
    "$bench" --seconds "$seconds" "${groups[@]}" > "$room/run_$run.tsv"
done
"$here/table.py" passes "$top" "$room" > "$room/table.md"
if [ -n "$programs" ]; then
    # The crate has a program of its own. A copy of its sources is built where the configuration names the others' folders.
    if [ -n "$sources" ]; then
        rm -rf "$room/original"
        cp -r "$sources/xmas-elf" "$room/original"
        (cd "$room/peers" && cargo build --quiet --release --manifest-path "$room/original/Cargo.toml") > "$room/crate.log" 2>&1 &&
            install -D "$room/target/release/main" "$room/crate/bin/main" || echo "the crate's program isn't built: $room/crate.log" >&2
    else
        cargo install --quiet --root "$room/crate" --version 0.10.0 xmas-elf > "$room/crate.log" 2>&1 || true
    fi
    "$here/programs.py" "$room" "$programs" >> "$room/table.md"
fi
# The library by its exports for C, beside what the runs above took.
if [ -n "$bindings" ]; then
    archive="${XMAS_ELF_ARCHIVE:-}"
    if [ -z "$archive" ]; then
        (cd "$copy/crates/elf_c" && rt lib) > "$room/exports.log" 2>&1 || { tail -30 "$room/exports.log" >&2; exit 1; }
        archive="$copy/crates/elf_c/out"
    fi
    gcc -std=c11 -O2 -march=x86-64-v2 -I"$top/bindings/include" "$top/bindings/c/speed.c" "$archive/libelf_c.a" -o "$room/speed"
    for group in "${groups[@]}"; do
        for ((run = 1; run <= runs; run++)); do "$room/speed" "${group#*=}" | sed "s/^/${group%%=*}\t/"; done
    done > "$room/exports.tsv"
    "$here/table.py" exports "$room" >> "$room/table.md"
fi
cat "$room/table.md"
[ -z "$growth" ] || "$here/growth.sh" "$room" | tee "$room/growth.md"
[ -z "$paste" ] || "$here/table.py" paste "$top" "$room/table.md"
