#!/usr/bin/env bash
# Builds the page that looks into a file, and serves it on the loopback address.
#   tools/web/web.sh [--port N]   builds bindings/web/out/site and serves it at http://127.0.0.1:N, 8042 where none is given
#   tools/web/web.sh --build      builds it alone: the folder can then be put on any server of static files
#   tools/web/web.sh --test [--files N]   builds it and tests it by bindings/web/tests/page.py, where Chromium is installed, and else says so
# XMAS_ELF_MODULE: a file elf_c.wasm; where it isn't set, `rt lib` makes it of crates/elf_c and what that uses.
set -euo pipefail
cd "$(dirname "$0")/../.."
web=bindings/web
site="$web/out/site"
read -ra uses <<< "$(PYTHONPATH=tools python3 -c 'from pages.sources import below, crates; print(*below(crates(), "elf_c"), "elf_c")')"
port=8042 does=serve
case "${1:-}" in
    --port) port="$2" ;;
    --build | --test) does="${1#--}" ;;
    "") ;;
    --help) sed -n '2,6s/^# //p' tools/web/web.sh; exit ;;
    *) sed -n '2,6s/^# //p' tools/web/web.sh >&2; exit 2 ;;
esac

# The checksum of all that the module is built of.
sources() {
    {
        cat crates.txt
        find "${uses[@]/#/crates/}" -path '*/out' -prune -o \( -name '*.rt' -o -name '*.antt' \) -print0 | sort -z | xargs -0 cat
    } | sha256sum
}

# Whether it ends by itself or is stopped, nothing that this script began goes on or stays.
room="" running=""
ended() {
    if [ -n "$running" ]; then kill "$running" 2> /dev/null && wait "$running" || true; fi
    if [ -n "$room" ]; then rm -rf "$room"; fi
}
trap ended EXIT
for signal in HUP INT TERM; do trap 'exit 1' "$signal"; done

# crates.txt builds `elf_c` for x86-64. The module is built of a copy of the sources, whose line says wasm64. What was
# proved here is copied too: `rt` proves again only what differs from the sources.
module() {
    local sum crate part
    sum="$(sources)"
    if [ -f "$web/out/elf_c.wasm" ] && [ "$sum" = "$(cat "$web/out/sum" 2> /dev/null)" ]; then return; fi
    if ! command -v rt > /dev/null; then
        echo "web: the Rattle kit builds the module, and rt is not on the path. A release has the page in its folder web;" >&2
        echo "web: or set XMAS_ELF_MODULE to a file elf_c.wasm" >&2
        exit 1
    fi
    room="$(mktemp -d)"
    cp HANDLES "$room/"
    sed -E -n "/^($(IFS='|'; echo "${uses[*]}"))[ :]/p" crates.txt | sed 's/^elf_c staticlib:/elf_c wasm64:/' > "$room/crates.txt"
    for crate in "${uses[@]}"; do
        mkdir -p "$room/crates/$crate/out"
        for part in src specs proofs out/rlib; do
            if [ -d "crates/$crate/$part" ]; then cp -a "crates/$crate/$part" "$room/crates/$crate/$(dirname "$part")/"; fi
        done
    done
    if [ -d crates/elf_c/out/incremental ]; then cp -a crates/elf_c/out/incremental "$room/crates/elf_c/out/"; fi
    echo "web: builds the module, which proves what of elf_c and below it isn't proved yet; its log is $web/out/log"
    (cd "$room/crates/elf_c" && exec rt lib) > "$web/out/log" 2>&1 &
    running=$!
    wait "$running" || { tail -n 20 "$web/out/log" >&2; exit 1; }
    running=""
    cp "$room/crates/elf_c/out/elf_c.wasm" "$web/out/elf_c.wasm"
    echo "$sum" > "$web/out/sum"
    rm -rf "$room"
    room=""
}

if [ "$does" = test ] && { ! /usr/bin/python3 -c "import selenium" 2> /dev/null || ! command -v chromedriver > /dev/null; }; then
    echo "web: Debian's python3-selenium and chromium-driver are not installed: the page is not tested"
    exit 0
fi
mkdir -p "$web/out"
if [ -z "${XMAS_ELF_MODULE:-}" ]; then
    module
    XMAS_ELF_MODULE="$web/out/elf_c.wasm"
fi
rm -rf "$site"
mkdir -p "$site"
cp "$web"/*.html "$web"/*.css "$web"/*.js "$web"/*.svg "$site/"
cp "$XMAS_ELF_MODULE" "$site/elf_c.wasm"
tools/web/records.py "$site/records.js"
tools/web/example.py "$site"
echo "web: $site"
if [ "$does" = test ]; then
    /usr/bin/python3 bindings/web/tests/page.py "${@:2}"
elif [ "$does" = serve ]; then
    echo "web: http://127.0.0.1:$port (stop with Ctrl-C)"
    python3 -m http.server --bind 127.0.0.1 --directory "$site" "$port" > /dev/null
fi
