# Makes the program and the two libraries of class 64, or with the argument 32 those of class 32, by
# gcc 12.2 and GNU ld 2.40. Those of class 32 are kept here under the names caller_32,
# libfirst_32.so and libsecond_32.so. What they are bound to is in ../stdout and bound_32.txt, worked
# out by hand from the sources and what `readelf -sW` shows, and with the libraries in the other
# order in bound_other.txt.
set -e
class=${1-64}
common="-m$class -Os -fcf-protection=none -fno-asynchronous-unwind-tables -fno-ident -nostdlib -s
    -Wl,--build-id=none,--no-as-needed,-z,norelro,-z,noseparate-code,-z,max-page-size=4096"
gcc $common -fPIC -shared -Wl,--hash-style=gnu,--version-script=first.map,-soname=libfirst.so \
    -o libfirst.so libfirst.c
gcc $common -fPIC -mtls-dialect=gnu2 -shared -Wl,--hash-style=sysv,-Bsymbolic,-soname=libsecond.so \
    -o libsecond.so libsecond.c
gcc $common -fno-pie -no-pie -Wl,--hash-style=gnu -o caller caller.c libfirst.so libsecond.so
for file in caller libfirst.so libsecond.so; do
    # cut off behind the last segment
    truncate -s $(($(readelf -lW $file | awk '$1 == "LOAD" { print $2 " + " $5 }' | tail -1))) $file
done
