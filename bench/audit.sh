#!/usr/bin/env bash
# usage: bench/audit.sh [PROGRAM [SEED]]
# What `--audit` says of transcripts, beside what the claims say word for word (audit/verdicts.py):
# of those under examples/, of those that the program writes of drawn scripts (audit/scripts.py),
# and of damaged ones (audit/damage.py). Of a whole transcript it is to be `holds`, and without its
# last byte it is no transcript. Prints how many verdicts there were of each law, and how many
# differ; the first that do are told on standard error, and all transcripts are kept then. The exit
# status is 0 where none does.
set -u
export LC_ALL=C
here="$(cd "$(dirname "${BASH_SOURCE[0]}")" && pwd)"
program="${1:-$here/../crates/cluster_main/out/cluster_main}"
seed="${2:-1}"
drawn=50
damaged=400
# No more than so many are told of.
told=10

room="$(mktemp -d)"
differ=0
trap '[ "$differ" -gt 0 ] || rm -rf "$room"' EXIT
mkdir "$room/scripts" "$room/whole" "$room/damaged"

differs() { # TEXT
    differ=$((differ + 1))
    [ "$differ" -gt "$told" ] || echo "audit: $1" >&2
}

# The verdict, and the exit status, 0 where all laws hold and 10 where one fails.
audited() { # TRANSCRIPT
    local said status
    said="$("$program" --audit <"$1" 2>/dev/null)"
    status=$?
    case "$said" in
    holds) [ "$status" = 0 ] ;;
    fails\ *) [ "$status" = 10 ] ;;
    *) false ;;
    esac && echo "$said" || echo "status $status, '$said'"
}

compare() { # TRANSCRIPT..
    local file verdict said i=0
    mapfile -t verdicts < <(python3 "$here/audit/verdicts.py" "$@")
    for file in "$@"; do
        verdict="${verdicts[i]:-no verdict}"
        said="$(audited "$file")"
        [ "$said" = "$verdict" ] || differs "$file: by the claims $verdict, but it says $said"
        echo "$verdict" >>"$room/verdicts"
        i=$((i + 1))
    done
}

# A transcript that lacks its last line feed is none, from its last line on.
cut_is_told() { # TRANSCRIPT
    local said
    said="$(head -c -1 "$1" | "$program" --audit 2>&1)"
    [ $? = 9 ] && [ "$said" = "line $(wc -l <"$1"): not a transcript" ]
}

cp "$here"/../examples/*.transcript "$room/whole"
python3 "$here/audit/scripts.py" "$seed" "$drawn" "$room/scripts" || exit 2
for script in "$room"/scripts/*.script; do
    name="$(basename "$script" .script)"
    "$program" <"$script" >"$room/whole/$name.transcript" || exit 2
done
python3 "$here/audit/damage.py" "$seed" "$damaged" "$room/damaged" "$room"/whole/*.transcript ||
    exit 2

compare "$room"/whole/*.transcript
for file in "$room"/whole/*.transcript; do
    cut_is_told "$file" || differs "$file: without its last byte it isn't refused at its last line"
done
whole="$(grep -vcx holds "$room/verdicts")"
[ "$whole" = 0 ] || differs "$whole whole transcripts don't hold by the claims"
compare "$room"/damaged/*.transcript
sed -e 's/^fails \([a-z]*\) .*/\1/' "$room/verdicts" | sort | uniq -c |
    awk '{ printf "%s%s %s", NR == 1 ? "" : ", ", $1, $2 } END { print "" }'
echo "$(wc -l <"$room/verdicts") transcripts, $differ differ"
[ "$differ" = 0 ]
