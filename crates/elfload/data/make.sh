# Makes two programs and their libraries of class 64 by gcc 12.2 and GNU ld 2.40. What is loaded of the first is in ../stdout, worked out
# by hand from what `readelf -hlW` shows: both ends of a load segment in whole pages, and the bytes from its offset. The words
# are from what `readelf -rDW` and `-sDW` show.
set -e
common="-Os -fcf-protection=none -fno-asynchronous-unwind-tables -fno-ident -nostdlib -s
    -Wl,--build-id=none,-z,noseparate-code,--hash-style=gnu"
gcc $common -fPIC -shared -Wl,-z,max-page-size=16384,-z,relro,-z,now,-soname=library.so -o library.so library.c
gcc $common -fPIE -pie -Wl,-z,max-page-size=4096,-z,relro,-z,now -o counter counter.c library.so
gcc $common -fPIC -shared -Wl,-z,max-page-size=4096,-z,now,-soname=libstarts.so,-init=library_init -o libstarts.so starts.c
gcc $common -fPIE -pie -Wl,-z,max-page-size=4096,-z,now,-init=own_init -o starter starter.c libstarts.so
for file in counter library.so starter libstarts.so; do
    # cut off behind the last segment
    truncate -s $(($(readelf -lW $file | awk '$1 == "LOAD" { print $2 " + " $5 }' | tail -1))) $file
done
