# Sourced by a bench of a program of crates/ beside plain Rust. Both read lines `WORK NUMBER`, and write for each of them
# a line `WORK MICROSECONDS` on standard error.
set -eu
here="$(cd "$(dirname "${BASH_SOURCE[0]}")" && pwd)"
folder="$(mktemp -d)"
trap 'rm -rf "$folder"' EXIT
plain=""

# Proves and builds crates/bench_NAME, where that is still to do, and compiles NAME.rs, where there is a rustc.
open_bench() { # NAME
    local crate="$here/../crates/bench_$1"
    ours="$crate/out/bench_$1"
    [ -x "$ours" ] || (cd "$crate" && rt run <stdin >"$folder/log" 2>&1) || {
        tail -n 20 "$folder/log" >&2
        exit 1
    }
    if command -v rustc >/dev/null; then
        plain="$folder/plain"
        rustc --edition 2021 -C opt-level=2 -o "$plain" "$here/$1.rs"
    fi
}

# Runs both programs on the lines that a command writes, side by side, five times.
run_both() { # COMMAND
    for _ in 1 2 3 4 5; do
        "$1" | "$ours" 2>>"$folder/ours.times" >/dev/null
        [ -z "$plain" ] || "$1" | "$plain" 2>>"$folder/plain.times" >/dev/null
    done
}

# The least time of a work, of our program or the plain one.
least() { # ours|plain WORK
    grep "^$2 " "$folder/$1.times" | cut -d' ' -f2 | sort -n | head -n 1
}

# Prints both least times of a work, each divided by a number, and their ratio.
compare() { # WORK NUMBER
    if [ -z "$plain" ]; then
        awk -v work="$1" -v number="$2" -v ours="$(least ours "$1")" \
            'BEGIN { printf "%s: %.1f (no rustc on this machine to compare with)\n", work, ours / number }'
    else
        awk -v work="$1" -v number="$2" -v ours="$(least ours "$1")" -v plain="$(least plain "$1")" \
            'BEGIN { printf "%s: %.1f, plain Rust %.1f, ratio %.2f\n", work, ours / number, plain / number, ours / plain }'
    fi
}
