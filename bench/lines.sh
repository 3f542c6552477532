#!/usr/bin/env bash
# How the time of a run grows with the lines of its script: ticks, puts and gets over ten digests, once
# with 200,000 lines and once with 400,000. Prints both times (the least of five runs) and their ratio,
# which is to be at most 2.5. Then the longest run there is, of two million lines that show a digest,
# beside the same work in plain Rust (lines.rs), of whose time it is to take at most twice as much.
set -eu
here="$(cd "$(dirname "${BASH_SOURCE[0]}")" && pwd)"
program="$here/../crates/cluster_main/out/cluster_main"
[ -x "$program" ] || "$here/../replay" --build
folder="$(mktemp -d)"
trap 'rm -rf "$folder"' EXIT

script() {
    awk -v lines="$1" 'BEGIN {
        print "node 1"; print "tick 1"; print "tick 1"; print "tick 1"
        for (i = 4; i < lines; i++) {
            digest = sprintf("#%02x%038d", i % 10, 0)
            if (i % 3 == 0) print "tick 1"
            else if (i % 3 == 1) print "put 1 " digest " v" i % 97
            else print "get 1 " digest
        }
    }'
}

least() {
    for _ in 1 2 3 4 5; do
        /usr/bin/env bash -c 'TIMEFORMAT=%R; time "$0" < "$1" > /dev/null' "$program" "$1" 2>&1
    done | sort -n | head -n 1
}

script 200000 > "$folder/short"
script 400000 > "$folder/long"
short="$(least "$folder/short")"
long="$(least "$folder/long")"
echo "200,000 lines: $short s"
echo "400,000 lines: $long s"
awk -v short="$short" -v long="$long" 'BEGIN { printf "ratio: %.2f\n", long / short }'

awk 'BEGIN { print "node 1"; for (i = 1; i < 2000000; i++) print "hash a" }' > "$folder/longest"
longest="$(least "$folder/longest")"
echo "2,000,000 digests: $longest s"
if command -v rustc >/dev/null; then
    rustc --edition 2021 -C opt-level=2 -o "$folder/plain" "$here/lines.rs"
    program="$folder/plain"
    plain="$(least "$folder/longest")"
    awk -v longest="$longest" -v plain="$plain" \
        'BEGIN { printf "plain Rust: %s s, ratio %.2f\n", plain, longest / plain }'
fi
