#!/usr/bin/env bash
# usage: bench/nodes.sh [OTHER]
# What a node's step costs in a run of the program, in microseconds: a tick of a lone node; a tick of a settled node with
# fifteen neighbours and 100,000 records; a tick of a node all of whose 4,096 partitions are still to settle; a put and
# its acknowledgement by the other replica; a get. Each is the time of a script with such steps less that of the same
# script without them, the least of three runs, by the number of steps, and has the journal's lines and their text in
# it. OTHER is another program of the same rules, which is then measured beside.
set -eu
here="$(cd "$(dirname "${BASH_SOURCE[0]}")" && pwd)"
program="$here/../crates/cluster_main/out/cluster_main"
[ -x "$program" ] || "$here/../replay" --build
folder="$(mktemp -d)"
trap 'rm -rf "$folder"' EXIT

repeat() { # TIMES LINE..
    yes "$(printf '%s\n' "${@:2}")" | head -n "$(($1 * ($# - 1)))"
}

nodes() { # COUNT
    echo "factor 2"
    seq -f 'node %g' 1 "$1"
}

records() { # COUNT, put at node 1
    seq -f 'put 1 s/%.0f v' 1 "$1"
}

lone() { printf 'node 1\ntick 1\ntick 1\ntick 1\n'; }
lone_steps() { repeat "$1" 'tick 1'; }

settled() {
    nodes 16
    printf 'groups 1 | 2 3 4 5 6 7 8 9 10 11 12 13 14 15 16\ncalm\n'
    records 100000
    printf 'groups 1 2 3 4 5 6 7 8 9 10 11 12 13 14 15 16\ncalm\n'
}
settled_steps() { repeat "$1" 'tick 1'; }

# The other node's messages after its exchange are lost, so that no partition is handed on or settled.
live() {
    nodes 2
    printf 'groups 1 | 2\ncalm\n'
    records 20000
    printf 'groups 1 2\n'
    repeat 9 round
    printf 'groups 1 | 2\n'
}
live_steps() { repeat "$1" 'tick 1'; }

# The client's table says which node takes a request.
pair() {
    nodes 2
    printf 'calm\nask 1\nflow\nflow\n'
}
put_steps() { seq "$1" | awk '{ print "cput s/" $1 " v"; print "flow"; print "flow" }'; }
get_steps() { seq -f 'cget s/%.0f' 1 "$1"; }

least() { # PROGRAM SCRIPT
    for _ in 1 2 3; do
        /usr/bin/env bash -c 'TIMEFORMAT=%R; time "$0" < "$1" > /dev/null' "$1" "$2" 2>&1
    done | sort -n | head -n 1
}

cost() { # PROGRAM STEPS
    awk -v before="$(least "$1" "$folder/before")" -v after="$(least "$1" "$folder/after")" -v steps="$2" \
        'BEGIN { printf "%.1f", (after - before) / steps * 1e6 }'
}

measure() { # NAME OPENING STEPS NUMBER
    "$2" >"$folder/before"
    { cat "$folder/before"; "$3" "$4"; } >"$folder/after"
    printf '%s: %s µs' "$1" "$(cost "$program" "$4")"
    [ -z "${other:-}" ] || printf ', the other program %s µs' "$(cost "$other" "$4")"
    echo
}

other="${1:-}"
measure "a tick of a lone node" lone lone_steps 500000
measure "a tick of a settled node with fifteen neighbours and 100,000 records" settled settled_steps 10000
measure "a tick with 4,096 live partitions" live live_steps 2000
measure "a put, sent and acknowledged" pair put_steps 50000
measure "a get" pair get_steps 200000
