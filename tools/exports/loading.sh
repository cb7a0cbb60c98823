#!/usr/bin/env bash
# Loads programs by the example in C, and compares what they print and how they end with what they do where the kernel and ld.so
# load them: a static program, and programs with a library, whose words the archive writes.
#   tools/exports/loading.sh FOLDER   FOLDER holds libelf_c.a
set -euo pipefail
archive="${1:?the folder of libelf_c.a}/libelf_c.a"
cd "$(dirname "$0")/../../bindings/examples"
room="$(mktemp -d)"
trap 'rm -rf "$room"' EXIT
gcc -std=gnu11 -O2 -Wall -Wextra -Werror -Wpedantic -I../include load.c "$archive" -o "$room/load"

# Runs a program by the system and by the example.
beside() {
    local wanted=0 found=0
    "$1" > "$room/wanted" || wanted=$?
    "$room/load" "$@" > "$room/found" || found=$?
    cmp "$room/wanted" "$room/found" && [ "$wanted" = "$found" ] || { echo "$*: status $found, by the system $wanted"; exit 1; }
}

gcc -O2 -static-pie -fPIE ../../tools/compare/sources/storage.c -o "$room/static"
beside "$room/static"
freestanding=(-O1 -ffreestanding -fno-stack-protector -nostdlib)
gcc "${freestanding[@]}" -fPIC -shared loaded_library.c -o "$room/libloaded.so"
for kind in "-pie" "-no-pie" "-pie -Wl,-z,now" "-pie -Wl,-z,pack-relative-relocs"; do
    gcc "${freestanding[@]}" $kind loaded.c -o "$room/loaded" -L"$room" -lloaded -Wl,-rpath,"$room"
    beside "$room/loaded" "$room/libloaded.so"
done
# A library without the symbols of the program is rejected before anything runs.
echo 'int none;' | gcc -nostdlib -shared -fPIC -x c - -o "$room/libempty.so"
{ "$room/load" "$room/loaded" "$room/libempty.so" 2>&1 || true; } | grep -q 'loaded: ' || { echo "a missing symbol is not named"; exit 1; }
