#!/usr/bin/env bash
# Says of each program that the scripts of the gate call whether it is here. Where one is missing that `.ci/run` can't do
# without, root installs it by apt-get; anyone else is told the package, and this fails. A line each.
set -euo pipefail
missing=0 updated=

# Whether these packages could be installed: by root alone, over lists that are fetched once.
install() {
    [ "$(id -u)" = 0 ] && command -v apt-get > /dev/null || return 1
    [ -n "$updated" ] || { apt-get update -qq > /dev/null 2>&1 || true; updated=yes; }
    DEBIAN_FRONTEND=noninteractive apt-get install -y -qq --no-install-recommends "$@" > /dev/null 2>&1
}

# The Rust that the crate of the bindings asks for.
rust="$(sed -n 's/^rust-version = "\(.*\)"/\1/p' "$(dirname "$0")/../../bindings/rust/Cargo.toml")"

# Whether a program is here, or a module of Debian's Python: a C compiler with the headers of the C library, and cargo with a
# Rust that is new enough.
is_here() {
    case "$1" in
        Python\'s\ *) /usr/bin/python3 -c "import ${1#* }" 2> /dev/null ;;
        gcc) echo '#include <stdlib.h>' | gcc -fsyntax-only -x c - 2> /dev/null ;;
        cargo) command -v cargo > /dev/null && printf '%s\n' "$rust" "$(rustc --version | cut -d ' ' -f 2)" | sort -C -V ;;
        *) command -v "$1" > /dev/null ;;
    esac
}

# Installs the first of these alternatives, as `a b/c`, that brings the program.
bring() {
    local program="$1" alternatives packages
    IFS=/ read -ra alternatives <<< "$2"
    for packages in "${alternatives[@]}"; do
        # shellcheck disable=SC2086
        if install $packages < /dev/null && is_here "$program"; then echo "$program: installed now, of the Debian package $packages"; return; fi
    done
    return 1
}

while IFS='|' read -r program packages kind for; do
    older=""
    [ "$program" != cargo ] || older=" with Rust $rust or newer"
    if is_here "$program"; then
        echo "$program: $(command -v "$program" || echo there)"
    elif [ "$kind" != optional ] && bring "$program" "$packages"; then
        :
    elif [ "$kind" = needed ]; then
        echo "$program$older: MISSING, of the Debian package ${packages//\// or }; needed by $for"
        missing=$((missing + 1))
    else
        echo "$program: missing, of the Debian package ${packages//\// or }; without it is left out: $for"
    fi
done < <(grep -v "^#" "$(dirname "$0")/packages.txt")
exit $((missing > 0))
