#!/usr/bin/env bash
# usage: bench/gate.sh [--markdown]                     runs the gate from nothing, on a clone of HEAD, and measures it
#        bench/gate.sh [--markdown] --sample [FOLDER]   measures the gate that runs, or is to start, in FOLDER or here
# Prints the minutes of a processor and those by the clock that each crate took, the most first, and their sum; what each
# other step of the gate took; and the longest chain of proofs. --markdown prints them as bench/README.md has them. The
# second way ends a minute after the last work there, or by an interrupt.
set -um
here="$(cd "$(dirname "${BASH_SOURCE[0]}")" && pwd)"
form=()
if [ "${1:-}" = --markdown ]; then
    form=(--markdown)
    shift
fi
if [ "${1:-}" = --sample ]; then
    exec python3 "$here/gate.py" "${form[@]}" "${2:-.}"
fi
folder="$(mktemp -d)"
gate=""
trap '[ -z "$gate" ] || kill -- "-$gate" 2>/dev/null; rm -rf "$folder"' EXIT
git clone -q "$here/.." "$folder/gate" && cd "$folder/gate" || exit 1
(
    TIMEFORMAT='as the system counts it: %U s and %S s of a processor, %R s by the clock'
    { time .ci/run >"$folder/said" 2>&1; } 2>"$folder/time"
) &
gate=$!
python3 "$here/gate.py" "${form[@]}" . &
sampler=$!
wait "$gate"
status=$?
gate=""
kill "$sampler"
wait "$sampler"
cat "$folder/time"
tail -n 1 "$folder/said"
exit "$status"
