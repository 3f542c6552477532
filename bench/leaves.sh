#!/usr/bin/env bash
# The leaf crates beside plain Rust: a digest of a million bytes, the lists of 4,096 partitions over
# sixteen members, and a store filled with 100,000 records beside std's ordered map of the same records.
# Prints both times in microseconds (the least of five runs, side by side) and their ratio.
. "$(dirname "${BASH_SOURCE[0]}")/beside.sh"
open_bench leaves
work() { printf 'digest 50\nlists 100\nstore 5\n'; }
run_both work
for name in digest lists store; do
    compare "$name" 1
done
