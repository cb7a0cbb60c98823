#!/bin/sh
# Makes places.so of places.s, and bare.so without its symbols, which are in bare.debug, by GNU binutils 2.40 on x86-64.
cd "$(dirname "$0")" || exit 1
link() {
    ld -shared -z noseparate-code -z norelro -z max-page-size=16 --hash-style=gnu "--build-id=$1" -o "$2" places.o
}
as -o places.o places.s && link none places.so && link 0xabcdef1234567890 bare.so &&
    objcopy --only-keep-debug bare.so bare.debug &&
    objcopy --strip-all --add-gnu-debuglink=bare.debug bare.so
rm -f places.o
