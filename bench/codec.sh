#!/usr/bin/env bash
# The codec on its longest State and on a Progress beside plain Rust, and the network with 131,072 and with
# 262,144 messages. Prints the times in microseconds (of one message; the least of many rounds, side by side)
# and their ratio.
. "$(dirname "${BASH_SOURCE[0]}")/beside.sh"
# Neither program gives memory back to the system between two messages, which would be measured otherwise.
export MALLOC_MMAP_THRESHOLD_=16777216 MALLOC_TRIM_THRESHOLD_=67108864
open_bench codec
works="read-state write-state read-progress write-progress"
times=20
work() {
    for name in $works; do
        for _ in 1 2 3 4 5 6 7 8 9 10; do echo "$name $times"; done
    done
}
run_both work
for name in $works; do
    compare "$name" "$times"
done

# The time of so many messages in the network.
net() { # NUMBER
    for _ in 1 2 3 4 5; do echo "net $1" | "$ours" 2>&1 >/dev/null; done | cut -d' ' -f2 | sort -n | head -n 1
}
awk -v half="$(net 131072)" -v whole="$(net 262144)" \
    'BEGIN { printf "net: %d for 131072 messages, %d for 262144, ratio %.2f\n", half, whole, whole / half }'
