#!/usr/bin/env bash
# Makes the files that the bench reads, in a folder; those that are there stay.
#
#     bench/files.sh FOLDER [growth]
#
# It takes GNU's assembler, linker and compiler. With `growth`, those of the table of growth too.
set -euo pipefail
here="$(cd "$(dirname "$0")" && pwd)"
mkdir -p "$1"
cd "$1"

# An object file with so many sections of code, a global symbol in each.
sections() {
    [ -f "$2" ] && return
    seq -f '%06.0f' "$1" | sed 's/.*/.section .text.part_&,"ax"\n.globl part_&\npart_&: ret/' | as -o "$2" -
}

# A shared library with so many exported functions, whose names have 28 bytes each, and both hash tables.
exports() {
    [ -f "$2" ] && return
    seq -f '%05.0f' "$1" | sed 's/.*/.globl exported_symbol_number_&\n.type exported_symbol_number_&, @function\nexported_symbol_number_&: ret/' | as -o parts.o -
    ld -shared --build-id --hash-style=both -o "$2" parts.o
    rm parts.o
}

# An object file with so many symbols of one section.
symbols() {
    [ -f "$2" ] && return
    seq -f '%07.0f' "$1" | sed 's/.*/.globl symbol_&\n.set symbol_&, 1&/' | as -o "$2" -
}

# Entries of a dynamic section, of all kinds of tags in turn.
dynamic() {
    [ -f "$2" ] && return
    {
        echo '.section .dynamic, "aw", @6'
        awk -v n="$1" 'BEGIN {
            k = split("1 2 3 5 6 7 8 9 10 11 12 13 14 20 21 23 25 26 27 28 0x6ffffffb 0x6ffffff0", tag, " ")
            for (i = 1; i < n; i++) printf ".quad %s, %d\n", tag[i % k + 1], 16 * i
            print ".quad 0, 0"
        }'
    } | as -o "$2" -
}

# Sections with a note each.
notes() {
    [ -f "$2" ] && return
    seq -f '%04.0f' "$1" | sed 's/.*/.section .note.part_&, "a", @note\n.long 4, 8, 1\n.asciz "GNU"\n.quad 1&/' | as -o "$2" -
}

sections 60000 sections.o
exports 10000 exports.so
exports 100000 exports_100000.so
dynamic 20000 dynamic.o
notes 2000 notes.o

if [ "${2:-}" = growth ]; then
    for n in 100 1000 10000; do sections "$n" "sections_$n.o"; done
    for n in 100 1000 10000 100000 1000000; do symbols "$n" "symbols_$n.o"; done
    for n in 100 1000 10000; do exports "$n" "exports_$n.so"; done
    for kind in ordinary one_bucket one_run; do
        [ -f "gnu_$kind.elf" ] || "$here/hostile.py" "gnu_$kind" 100000 "gnu_$kind.elf"
    done
    for n in 100 1000 10000 100000; do
        [ -f "sysv_ordinary_$n.elf" ] || "$here/hostile.py" sysv_ordinary "$n" "sysv_ordinary_$n.elf"
    done
    # About 1 MB each.
    [ -f sysv_one_chain.elf ] || "$here/hostile.py" sysv_one_chain 17000 sysv_one_chain.elf
    [ -f sysv_tails.elf ] || "$here/hostile.py" sysv_tails 17000 sysv_tails.elf
    [ -f sysv_tails_mixed.elf ] || "$here/hostile.py" sysv_tails_mixed 17000 sysv_tails_mixed.elf
fi
