#!/usr/bin/env bash
# Builds the shared object of bindings/python and tests the package beside pyelftools.
#   tools/exports/python.sh [--files N]    over N files of the system, 300 where none is named
#   tools/exports/python.sh --build        builds, and no more
#   tools/exports/python.sh --speed FILE   measures it beside pyelftools over a library
# It needs pytest and pyelftools: apt-get install python3-pytest python3-pyelftools. mypy checks the types where it is
# there. XMAS_ELF_ARCHIVE: a folder that holds libelf_c.a; where it isn't set, `rt lib` makes it.
set -euo pipefail
cd "$(dirname "$0")/../.."
if [ "${1:-}" = --help ]; then sed -n '2,7s/^# //p' tools/exports/python.sh; exit; fi
tools/exports/declarations.py --check
if [ -z "${XMAS_ELF_ARCHIVE:-}" ]; then
    log="$(mktemp)"
    trap 'rm -f "$log"' EXIT
    (cd crates/elf_c && rt lib) > "$log" 2>&1 || { tail -n 20 "$log" >&2; exit 1; }
fi
python3 bindings/python/wheel_backend.py
[ "${1:-}" != --build ] || exit 0

# The first Python that has what the tests need: that of the path may not be Debian's.
for python in python3 /usr/bin/python3 none; do
    if "$python" -c "import pytest, elftools" 2> /dev/null; then break; fi
done
[ "$python" != none ] || { echo "python: not tested: pytest and pyelftools are missing (python3-pytest, python3-pyelftools)"; exit 0; }
if [ "${1:-}" = --speed ]; then
    PYTHONPATH=bindings/python exec "$python" bindings/python/speed.py "$2"
fi
"$python" -m pytest -q -p no:cacheprovider bindings/python/tests "$@"
if "$python" -c "import mypy" 2> /dev/null; then
    (cd bindings/python && "$python" -m mypy --strict --cache-dir=/dev/null xmas_elf)
fi
