#!/usr/bin/env bash
# Measures passes in many layouts of the code, and prints a row for each layout; README.md here says more.
#
#     bench/layouts.sh --room FOLDER [--layouts N] [--passes 'NAME;NAME..'] [--runs N] [--seconds S] [--large FILE]
#
# FOLDER is the one of an earlier `bench/run.sh --room FOLDER`, whose library and peers it links again.
set -euo pipefail
here="$(cd "$(dirname "$0")" && pwd)"
room="" layouts=24 passes="an empty pass (a call);check of the ELF header" runs=24 seconds=0.06 large=""
while [ $# -gt 0 ]; do
    case "$1" in
        --room) room="$(cd "$2" && pwd)" ;;
        --layouts) layouts="$2" ;;
        --passes) passes="$2" ;;
        --runs) runs="$2" ;;
        --seconds) seconds="$2" ;;
        --large) large="$2" ;;
        *) room="" && break ;;
    esac
    shift 2
done
[ -n "$room" ] || { sed -n '2,6s/^# \{0,1\}//p' "$0" >&2; exit 2; }
[ -n "$large" ] || large="$(find "$(rustc --print sysroot)/lib" -maxdepth 1 -name 'librustc_driver-*.so' | head -n 1)"

# Cargo calls this in place of the linker. It links the same objects once for each layout, with the functions in another order.
rm -rf "$room/layouts"
mkdir "$room/layouts"
cat > "$room/layouts/every-gcc" <<'END'
#!/usr/bin/env bash
set -e
cc "$@"
for ((layout = 1; layout <= LAYOUTS; layout++)); do
    cc "$@" -fuse-ld=lld "-Wl,--shuffle-sections=.text*=$layout" -o "$(dirname "$0")/bench_$layout"
done
END
chmod +x "$room/layouts/every-gcc"
export LAYOUTS="$layouts" HERE="$room/repository/crates/here/out" CARGO_TARGET_DIR="$room/layouts/target"
export RUSTFLAGS="-C target-cpu=x86-64-v2 --cap-lints warn"
(cd "$room/peers" && cargo rustc --release --bin bench -- -C "linker=$room/layouts/every-gcc") > "$room/layouts/log" 2>&1 ||
    { tail -30 "$room/layouts/log" >&2; exit 1; }

# A run of each layout before the second run of one, so that other work on the machine slows no layout alone.
for ((run = 1; run <= runs; run++)); do
    for ((layout = 1; layout <= layouts; layout++)); do
        "$room/layouts/bench_$layout" --seconds "$seconds" --passes "$passes" "large=$large" | sed "s/^/$layout\t/"
    done
done > "$room/layouts/times.tsv"
"$here/table.py" layouts "$room/layouts/times.tsv"
