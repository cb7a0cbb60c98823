#!/usr/bin/env bash
# growth.sh ROOM: how the time of a call grows with the file, for the files that `files.sh FOLDER growth` makes.
set -euo pipefail
here="$(cd "$(dirname "$0")" && pwd)"
files="$1/files" bench="$1/target/release/bench"
measure() {
    local group="$1" passes="$2" file
    shift 2
    for file in "$@"; do
        "$bench" --seconds "${SECONDS_EACH:-0.1}" --passes "$passes" "$group=$files/$file" | sed "s/^$group\t/$file\t/"
    done
}
{
    measure sections "section headers by iterator;names of sections;find the last section by its name (a call);raw data of sections" \
        sections_100.o sections_1000.o sections_10000.o sections.o
    measure exports "values of symbols;names of symbols, string table once;find the last symbol by a search" \
        symbols_100.o symbols_1000.o symbols_10000.o symbols_100000.o symbols_1000000.o
    measure exports "look-ups by the gABI's hash table;look-ups by GNU's hash table;check of the gABI's hash table (a symbol);check of GNU's hash table (a symbol)" \
        exports_100.so exports_1000.so exports_10000.so
    measure hostile "check of the gABI's hash table (a symbol);check of GNU's hash table (a symbol)" \
        sysv_ordinary_100.elf sysv_ordinary_1000.elf sysv_ordinary_10000.elf sysv_ordinary_100000.elf \
        sysv_one_chain.elf gnu_ordinary.elf gnu_one_bucket.elf gnu_one_run.elf
} > "$1/growth.tsv"
"$here/table.py" growth "$1/growth.tsv"
