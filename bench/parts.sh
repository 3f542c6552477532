#!/usr/bin/env bash
# The parts of a node beside plain Rust: rounds of heartbeats of fifteen neighbours and a tick, exchanges of
# sixteen members with 4,096 entries a row, rounds of Progress of fifteen members, emigrations of 100,000
# records in batches, and 100,000 transactions. Prints both times in microseconds (of one round or run; the
# least of five, side by side) and their ratio.
. "$(dirname "${BASH_SOURCE[0]}")/beside.sh"
# Neither program gives memory back to the system between two rounds, which would be measured otherwise.
export MALLOC_MMAP_THRESHOLD_=33554432 MALLOC_TRIM_THRESHOLD_=268435456
open_bench parts
times=(beats 20000 exchange 10 progress 500 batches 3 transactions 3)
work() { printf '%s %s\n' "${times[@]}"; }
run_both work
for ((i = 0; i < ${#times[@]}; i += 2)); do
    compare "${times[i]}" "${times[i + 1]}"
done
