#!/usr/bin/env bash
# Installs the Debian package of a release in a root of its own, which has neither the kit nor a compiler, and runs there each
# program, `man` over each page, and the first programs of the pages in C, C++, Rust and Python.
#   tools/exports/try_debian.sh [FOLDER]    FOLDER is dist where it isn't named
# It needs root, and mmdebstrap, which reads Debian's packages. The programs in C, C++ and Rust are built outside, by the compilers of
# Debian 12 or older, of what the package has put into the root.
set -euo pipefail
cd "$(dirname "$0")/../.."
dist="$(realpath "${1:-dist}")"
room="$(mktemp -d)"
trap 'rm -rf "$room"' EXIT
chmod 755 "$room"
root="$room/root"
mmdebstrap --quiet --variant=apt --include=python3,python3-venv,man-db,pkgconf bookworm "$root"
cp "$dist"/xmas-elf_*_amd64.deb "$root/tmp/xmas-elf.deb"
inside() { /usr/sbin/chroot "$root" /usr/bin/env -i PATH=/usr/sbin:/usr/bin:/sbin:/bin HOME=/root LC_ALL=C.UTF-8 "$@"; }
inside DEBIAN_FRONTEND=noninteractive apt-get install -y -qq /tmp/xmas-elf.deb > "$room/log" 2>&1 ||
    { tail -n 20 "$room/log" >&2; exit 1; }
for name in gcc cc g++ cargo rt; do ! inside sh -c "command -v $name" > /dev/null || { echo "$name is in the root" >&2; exit 1; }; done

# The options of each page are those that the program prints.
words() { tr -s ' ' '\n' | sed '/^$/d'; }
for name in elfaddr elfbind elfinfo elfload elfsize elfsym elftree; do
    inside "$name" --version
    inside "$name" --help > "$room/help"
    inside MANWIDTH=5000 man -P cat "$name" > "$room/page"
    grep -q "^EXIT STATUS" "$room/page" || { echo "no page of $name" >&2; exit 1; }
    diff <(sed -n '/^--/p; /^ /p' "$room/help" | words) <(sed -n '/^OPTIONS/,/^EXIT STATUS/{/^ /p}' "$room/page" | words)
done
inside elfsize /bin/ls > "$room/sizes"
inside elfload /bin/ls > "$room/plan"
grep -q "section .text" "$room/sizes" && grep -q "^glibc" "$room/plan"

# The examples, and the first program of each page, with the installed header, library, crate and wheel, and what pkg-config says there.
shown() { awk -v mark="^\`\`\`$2\$" '$0 ~ mark { on = 1; next } on && /^```$/ { exit } on' "$dist/$1/README.md"; }
unset XMAS_ELF_ARCHIVE CARGO_TARGET_DIR
read -ra flags <<< "$(inside pkg-config --cflags --libs xmas_elf)"
folders=(-I"$root/usr/include" -L"$root/usr/lib/x86_64-linux-gnu")
for it in c cpp; do shown c $it > "$room/page.$it"; done
for program in "$dist/examples/symbols" "$room/page"; do
    gcc -std=c11 "${folders[@]}" "$program.c" "${flags[@]}" -o "$root/tmp/${program##*/}_c"
    g++ -std=c++17 "${folders[@]}" "$program.cpp" "${flags[@]}" -o "$root/tmp/${program##*/}_cpp"
done
cargo new --quiet --vcs none "$room/rust" && mkdir "$room/rust/src/bin"
cp "$dist/examples/symbols.rs" "$room/rust/src/bin/symbols_rs.rs"
shown rust rust | sed 's|"/proc/self/exe"|"/bin/ls"|' > "$room/rust/src/bin/page_rs.rs"
cargo add --quiet --offline --manifest-path "$room/rust/Cargo.toml" --path "$root/usr/share/xmas-elf/rust"
cargo build --quiet --offline --manifest-path "$room/rust/Cargo.toml"
cp "$room"/rust/target/debug/{symbols,page}_rs "$dist/examples/symbols.py" "$root/tmp/"
shown python python > "$root/tmp/page.py"
inside python3 -m venv /tmp/room
inside sh -c '/tmp/room/bin/pip install --quiet --no-index /usr/share/xmas-elf/*.whl'

inside /tmp/symbols_c /bin/ls > "$room/c"
for it in symbols_cpp symbols_rs "room/bin/python /tmp/symbols.py"; do inside sh -c "/tmp/$it /bin/ls" | cmp - "$room/c"; done
[ -s "$room/c" ] || { echo "no symbols of ls" >&2; exit 1; }
for it in /tmp/page_c "/tmp/page_cpp /bin/ls" /tmp/page_rs "/tmp/room/bin/python /tmp/page.py"; do
    inside sh -c "$it" < "$root/bin/ls" > "$room/page" && [ -s "$room/page" ] || { echo "$it prints nothing" >&2; exit 1; }
done
echo "package: $(wc -l < "$room/c") symbols of ls from C, C++, Rust and Python in a root without a compiler"
