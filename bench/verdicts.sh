#!/usr/bin/env bash
# usage: bench/verdicts.sh [PROGRAM]
# What `--audit` takes of a processor with long transcripts, the least of five runs, beside what it
# takes to read them. Their last line lacks its line feed for the latter, so that all is read, and
# nothing is judged. With judging it is to take at most three times as long; the exit status is 1
# where it takes more.
set -u
here="$(cd "$(dirname "${BASH_SOURCE[0]}")" && pwd)"
program="${1:-$here/../crates/cluster_main/out/cluster_main}"
most=3

folder="$(mktemp -d)"
trap 'rm -rf "$folder"' EXIT

# The seconds of a processor, or nothing where a run ends with another status.
least() { # STATUS TRANSCRIPT
    local seconds
    for _ in 1 2 3 4 5; do
        seconds="$(TIMEFORMAT='%U %S'; { time "$program" --audit <"$2" >/dev/null 2>&1; } 2>&1)"
        [ $? = "$1" ] || return
        echo "$seconds"
    done | awk '{ print $1 + $2 }' | sort -n | head -n 1
}

status=0
for work in hashes rounds records; do
    python3 "$here/audit/works.py" "$work" | "$program" >"$folder/whole" || exit 2
    head -c -1 "$folder/whole" >"$folder/cut"
    judged="$(least 0 "$folder/whole")"
    read="$(least 9 "$folder/cut")"
    awk -v work="$work" -v lines="$(wc -l <"$folder/whole")" -v judged="$judged" -v read="$read" \
        -v most="$most" 'BEGIN {
            if (judged == "" || read == "") { print work ": no verdict"; exit 1 }
            printf "%s, %d lines: judged in %s s, read in %s s, ratio %.2f\n",
                work, lines, judged, read, judged / read
            exit judged > most * read
        }' || status=1
done
exit "$status"
