#!/usr/bin/env bash
# usage: bench/hostile.sh [PROGRAM [OTHER]]
# How the program ends where something fails: memory, reads and writes that are refused, each call in turn; ends that are
# full, closed or no file; cut messages; odd bytes; scripts at and past each limit; and what it leaves to the system. Prints
# a line of figures for each, which passes where all was as docs/RULES.md says. What isn't is told on standard error, its
# script is kept, and the exit status is 1. The last line is 'N passed, M failed'. OTHER is another program of the same
# rules, whose answers are then compared. bench/refuse.c makes calls fail.
set -u
export LC_ALL=C
here="$(cd "$(dirname "${BASH_SOURCE[0]}")" && pwd)"
program="${1:-$here/../crates/cluster_main/out/cluster_main}"
other="${2:-}"
[ -x "$program" ] || [ $# -gt 0 ] || "$here/../replay" --build
[ -x "$program" ] || { echo "bench/hostile.sh: there is no program $program" >&2 && exit 2; }

# No run takes so many seconds of a processor.
ulimit -t 120

folder="$(mktemp -d)"
script="$folder/script"
whole="$folder/whole"
out="$folder/out"
said="$folder/said"
deviations=0
told=0
passed=0
failed=0
trap '[ "$deviations" -gt 0 ] || rm -rf "$folder"' EXIT

# ---- a run, and how it ended

play() { # SETTING..
    env "$@" "$program" <"$script" >"$out" 2>"$said"
    status=$?
}

says() { # TEXT
    local lines
    mapfile -t lines <"$said"
    [ "${#lines[@]}" -le 1 ] && [ "${lines[*]}" = "$1" ]
}

is_whole() { cmp -s "$out" "$whole"; }
is_front() { [ ! -s "$out" ] || cmp -s -n "$(wc -c <"$out")" "$out" "$whole"; }

is_played() { [ "$status" = 0 ] && is_whole && says ""; }
is_refused() { [ "$status" = "$1" ] && [ ! -s "$out" ] && says "$2"; } # STATUS TEXT
is_cut_off() { [ "$status" = "$1" ] && is_front && says "$2"; }        # STATUS TEXT

# Where there was no memory for the text of the fault, nothing is said.
has_no_memory() { is_cut_off 1 "no memory" || is_cut_off 1 ""; }
memory_is_told() { is_played || has_no_memory; }
read_is_told() { is_refused 4 "read fault"; }
write_is_told() { is_cut_off 5 "write fault"; }

deviates() { # WHAT
    deviations=$((deviations + 1))
    cp "$script" "$folder/$deviations.script"
    echo "deviates: $1: status $status, $(wc -c <"$out") bytes written, said '$(head -c 80 "$said")';" \
        "the script is $folder/$deviations.script" >&2
}

check() { # WHAT TEST..
    "${@:2}" || deviates "$1"
}

# Tells what was tried, which passes where nothing has deviated since the last line.
tell() { # WORDS..
    echo "$*"
    if [ "$deviations" = "$told" ]; then passed=$((passed + 1)); else failed=$((failed + 1)); fi
    told=$deviations
}

# Plays the script with all that it needs, and keeps what it writes.
play_whole() { # WHAT
    play
    cp "$out" "$whole"
    check "$1" is_played
    [ -z "$other" ] || "$other" <"$script" 2>/dev/null | cmp -s - "$whole" || deviates "$1, beside the other program"
}

# ---- scripts

zeros="$(printf '%040d' 0)"
far="ffff$(printf '%036d' 0)"

repeat() { # TIMES LINE
    yes "$2" | head -n "$1"
}

lone() {
    printf 'node 1\ntick 1\ntick 1\ntick 1\nput 1 #%s hi\nget 1 #%s\n' "$zeros" "$zeros"
}

# Both sides of a split take a write of one record, and then they may meet.
two_sides() { # FACTOR
    printf 'factor %s\nnode 1\nnode 2\ngroups 1 | 2\n' "$1"
    repeat 3 'tick 1'
    repeat 3 'tick 2'
    printf 'put 1 #%s a\nput 2 #%s b\ngroups 1 2\n' "$far" "$far"
}

merged() { # FACTOR
    two_sides "$1"
    printf 'calm\nshow 1 #%s\nshow 2 #%s\n' "$far" "$far"
}

# Four nodes of which one is apart, 256 writes, a merge and a restart.
four_nodes() {
    printf 'factor 1\nnode 1\nnode 2\nnode 3\nnode 4\ngroups 1 2 3 | 4\ncalm\nask 1\nflow\nflow\n'
    seq -f 'cput s/%g v' 256
    printf 'round\ngroups 1 2 3 4\n'
    repeat 8 round
    printf 'stop 2\nround\nstart 2\ncalm\n'
    seq 256 | awk '{ for (node = 1; node <= 4; node++) print "show", node, "s/" $1 }'
}

# Five nodes, 300 writes with a round behind each, a restart of each node, and reads.
usual() {
    echo 'factor 2'
    seq -f 'node %g' 5
    printf 'calm\nask 1\nflow\nflow\n'
    seq 300 | awk '{ print "cput s/" $1 " v" $1; print "round" }'
    seq 5 | awk '{ print "stop " $1; for (i = 0; i < 15; i++) print "round"; print "start " $1; print "calm" }'
    printf 'ask 1\nflow\nflow\n'
    seq -f 'cget s/%g' 300
}

# Commands that a number draws.
drawn() { # NUMBER
    awk -v number="$1" '
        function draw(below) { state = state * 16807 % 2147483647; return state % below }
        function node() { return 1 + draw(nodes) }
        function key() { return "u/" draw(4) }
        function message() { return 1 + draw(30 + 4 * line) }
        function groups(   n, text) {
            text = "groups 1"
            for (n = 2; n <= nodes; n++) text = text (draw(2) ? " " : " | ") n
            return text
        }
        function command(kind) {
            if (kind == 0) return "clock " node() " " draw(100)
            if (kind == 1) return "put " node() " " key() " v" line
            if (kind == 2) return "get " node() " " key()
            if (kind == 3) return "del " node() " " key()
            if (kind == 4) return "cput " key() " w" line
            if (kind == 5) return "cget " key()
            if (kind == 6) return "deliver " message()
            if (kind == 7) return "repeat " message()
            if (kind == 8) return "lose " message()
            if (kind == 9) return "cut " message() " " draw(20)
            if (kind == 10) return "stop " node()
            if (kind == 11) return "start " node()
            if (kind == 12) return groups()
            if (kind == 13) return "flow"
            if (kind == 14) return "show " node() " " key()
            if (kind == 15) return "ask " node()
            return kind < 18 ? "tick " node() : "round"
        }
        BEGIN {
            state = 7919 * number + 1
            nodes = 2 + draw(4)
            print "factor " 1 + draw(3)
            for (line = 1; line <= nodes; line++) print "node " line
            print "calm"
            for (line = 1; line <= 80; line++) print command(draw(20))
            for (line = 1; line <= nodes; line++) print "start " line
            print "calm"
        }'
}

# ---- calls that fail

# All numbers to a count, or so many of them, evenly from the first to the last.
numbers_to() { # COUNT MOST
    awk -v count="$1" -v most="$2" 'BEGIN {
        if (count <= most) for (i = 1; i <= count; i++) print i
        else for (i = 0; i < most; i++) print 1 + int(i * (count - 1) / (most - 1))
    }'
}

# Makes each call of a kind fail in turn, and tells how many there are, how many were tried, and the ends.
refuse_each() { # WHAT TEST MOST CALL SETTING..
    local what="$1" test="$2" most="$3" call="$4" number tried=0 fronts=0
    local -A ends=()
    shift 4
    play "$@" REFUSE_CALL="$call" REFUSE_COUNT="$folder/count" LD_PRELOAD="$folder/refuse.so"
    check "$what, counted" is_played
    for number in $(numbers_to "$(<"$folder/count")" "$most"); do
        play "$@" REFUSE_CALL="$call" REFUSE_FIRST="$number" LD_PRELOAD="$folder/refuse.so"
        check "$what, number $number" "$test"
        tried=$((tried + 1))
        ends[$status]=$((${ends[$status]:-0} + 1))
        [ "$status" = 0 ] || [ ! -s "$out" ] || fronts=$((fronts + 1))
    done
    [ "$tried" -gt 0 ] || deviates "$what: no call was counted"
    tell "$what: $tried of $(<"$folder/count") tried;$(ends_of ends) $fronts behind a front of the transcript"
}

ends_of() { # TABLE: how many ended with each status, the least first
    local -n by_status="$1"
    local number
    for number in $(printf '%s\n' "${!by_status[@]}" | sort -n); do
        printf ' %d ended with %d,' "${by_status[$number]}" "$number"
    done
}

refuse_memory() { # WHAT MOST
    play_whole "$1"
    refuse_each "$1, an allocation" memory_is_told "$2" memory
    refuse_each "$1, an allocation and all later ones" memory_is_told "$2" memory REFUSE_LASTING=1
}

refuse_ends() {
    local error call
    merged 2 >"$script"
    play_whole "two sides"
    for error in 4 5; do
        refuse_each "a read of 16 bytes, error $error" read_is_told 1000 read REFUSE_PIECE=16 REFUSE_ERROR="$error"
    done
    for error in 0 4 28; do
        refuse_each "a write of 997 bytes, error $error" write_is_told 1000 write REFUSE_PIECE=997 REFUSE_ERROR="$error"
    done
    for call in read write; do
        play REFUSE_CALL="$call" REFUSE_PIECE=1 REFUSE_COUNT="$folder/count" LD_PRELOAD="$folder/refuse.so"
        check "a $call of one byte at a time" is_played
        tell "a $call of one byte at a time: played, by $(<"$folder/count") calls"
    done
    usual >"$script"
    play_whole "five nodes"
    refuse_each "five nodes, a write" write_is_told 200 write
    repeat 3 'tick 1' >"$script"
    play REFUSE_CALL=say REFUSE_FIRST=1 REFUSE_LASTING=1 LD_PRELOAD="$folder/refuse.so"
    check "a write to standard error" is_refused 3 ""
    tell "a write to standard error: the status is still the script's, 3"
}

refuse_calls() {
    local number
    if ! command -v cc >/dev/null; then
        echo "calls that fail: there is no C compiler on this machine"
        return
    fi
    cc -O1 -shared -fPIC -o "$folder/refuse.so" "$here/refuse.c" || exit 1
    lone >"$script"
    refuse_memory "one node" 1000
    merged 2 >"$script"
    refuse_memory "two sides" 1000
    merged 1 >"$script"
    refuse_memory "two sides, one copy" 1000
    for number in 1 2 3 4 5 6 7 8 9 10; do
        drawn "$number" >"$script"
        refuse_memory "drawn script $number" 100
    done
    refuse_ends
}

# ---- ends that are no file, or have no room

play_to() { # PATH
    "$program" <"$script" >"$1" 2>"$said"
    status=$?
    : >"$out"
}

play_to_closed_pipe() {
    mkfifo "$folder/pipe"
    exec 3<>"$folder/pipe"
    exec 4>"$folder/pipe"
    exec 3>&-
    "$program" <"$script" >&4 2>"$said"
    status=$?
    exec 4>&-
    : >"$out"
}

# The limit is in blocks of 1,024 bytes, and its signal is held back.
play_to_small_file() { # BLOCKS
    (
        trap '' XFSZ
        ulimit -f "$1"
        exec "$program" <"$script" >"$out" 2>"$said"
    )
    status=$?
}

odd_ends() {
    four_nodes >"$script"
    play_whole "four nodes"
    play_to /dev/full
    check "a full disk" write_is_told
    play_to_small_file 100
    check "a file that may not grow past 102,400 bytes" write_is_told
    [ "$(wc -c <"$out")" = 102400 ] || deviates "a file that may not grow past 102,400 bytes, and has fewer"
    play_to_closed_pipe
    check "a closed pipe" write_is_told
    "$program" <"$script" 2>"$said" >&-
    status=$?
    : >"$out"
    check "a closed standard output" write_is_told
    "$program" <"$script" 2>"$said" | dd bs=1 of="$out" 2>/dev/null
    status="${PIPESTATUS[0]}"
    check "a pipe that is read byte by byte" is_played
    tell "a full disk, a file of 100 blocks, a closed pipe, a closed output: each ended with 5; a pipe that is read byte" \
        "by byte: all $(wc -c <"$whole") bytes"

    "$program" <"$folder" >"$out" 2>"$said"
    status=$?
    check "a directory as input" read_is_told
    "$program" <&- >"$out" 2>"$said"
    status=$?
    check "a closed standard input" read_is_told
    : >"$script"
    play_to /dev/full
    : >"$whole"
    check "an empty script and a full disk" is_played
    tell "a directory and a closed input: each ended with 4; an empty script and a full disk: 0, as nothing is to be written"
}

# ---- odd words

odd_words() {
    local word words=(--sum -- -s '' --summary=yes --generate --generate=18446744073709551616)
    words+=("$(printf '\377')" "$(printf '%0100000d' 0)")
    lone >"$script"
    for word in "${words[@]}"; do
        "$program" "$word" <"$script" >"$out" 2>"$said"
        status=$?
        check "the word ${word:0:40}" is_refused 2 "bad words"
    done
    "$program" --generate 7 <"$script" >"$whole"
    "$program" --generate 7 <"$folder" >"$out" 2>"$said"
    status=$?
    check "a generated script, and a directory as input" is_played
    tell "odd words: each ended with 2; a generated script, and a directory as input: played, as nothing is read"
}

# ---- odd bytes

# 65,536 of them, of one of four sorts: any bytes; a node and bytes below 128; a script in which now and then a line is of
# odd fields; a script of which one byte is another.
odd() { # NUMBER
    awk -v number="$1" '
        function draw(below) { state = state * 16807 % 2147483647; return int(state / 2147483647 * below) }
        function byte(below) { return sprintf("%c", draw(below)) }
        function bytes(size, below) { while (size-- > 0) printf "%s", byte(below) }
        function field() { return fields[1 + draw(field_count)] }
        function odd_line(   size, text) {
            text = field()
            for (size = draw(5); size > 0; size--) text = text " " field()
            return text
        }
        function line(odd_in) { return odd_in && draw(odd_in) == 0 ? odd_line() : propers[1 + draw(proper_count)] }
        function lines(odd_in,   text) {
            text = "node 1\nnode 2\n"
            while (length(text) < 65500) text = text line(odd_in) "\n"
            while (length(text) < 65536) text = text "\n"
            return text
        }
        function changed(text,   place) {
            place = 1 + draw(65536)
            return substr(text, 1, place - 1) byte(256) substr(text, place + 1)
        }
        BEGIN {
            state = 104729 * number + 1
            field_count = split("node tick put get del 1 2 65535 0 # | ; a/b 18446744073709551616 \r calm groups hash cut " \
                "flow", fields, " ")
            proper_count = split("tick 1,tick 2,put 1 a v,get 2 a,hash a/b,clock 1 7,show 1 a,lose 3,stop 2,start 2,; " \
                "a remark in which any byte may change but for a line feed", propers, ",")
            if (number % 4 == 0) bytes(65536, 256)
            if (number % 4 == 1) { print "node 1"; bytes(65529, 128) }
            if (number % 4 == 2) printf "%s", lines(1000)
            if (number % 4 == 3) printf "%s", changed(lines(0))
        }'
}

# The line that it names is bad, and those before it are a script.
is_first_bad_line() {
    local told line
    told="$(<"$said")"
    [[ "$told" =~ ^line\ ([0-9]+):\ [A-Z][A-Za-z0-9]+$ ]] || return 1
    line="${BASH_REMATCH[1]}"
    head -n "$line" "$script" | "$program" 2>&1 >/dev/null | cmp -s - "$said" || return 1
    head -n "$((line - 1))" "$script" | "$program" >/dev/null 2>&1
}

as_the_other() {
    "$other" <"$script" >"$folder/other" 2>"$folder/other.said"
    [ "$status" = $? ] && cmp -s "$out" "$folder/other" && cmp -s "$said" "$folder/other.said"
}

odd_bytes() {
    local number refused=0
    for number in $(seq 100); do
        odd "$number" >"$script"
        play
        if [ "$status" = 3 ]; then
            refused=$((refused + 1))
            { [ ! -s "$out" ] && is_first_bad_line; } || deviates "odd bytes $number"
        else
            { [ "$status" = 0 ] && says ""; } || deviates "odd bytes $number"
        fi
        [ -z "$other" ] || as_the_other || deviates "odd bytes $number, beside the other program"
    done
    tell "65,536 odd bytes, a hundred times: $refused refused at their first bad line with nothing written," \
        "$((100 - refused)) played"
}

# ---- cut messages

meeting() {
    two_sides 2
    repeat 4 round
    printf 'tick 1\ntick 2\ntick 2\n'
}

exchanged() {
    two_sides 2
    repeat 6 round
}

in_racks() {
    printf 'script 2\nfactor 2\nnode 1 1\nnode 2 2\n'
    repeat 4 round
    printf 'tick 1\ntick 2\n'
}

# A script after which messages of the kind are in flight.
sent() { # KIND
    case "$1" in
        1) two_sides 2 && echo 'tick 1' ;;
        2) meeting ;;
        3) meeting && echo 'deliver 17' ;;
        4) entered && echo 'groups 1 | 2' && repeat 13 'tick 1' && printf 'groups 1 2\ndeliver 19\n' ;;
        5) meeting && printf 'deliver 17\ndeliver 20\n' ;;
        6) entered && echo 'tick 1' ;;
        7) exchanged && echo 'tick 1' ;;
        8) exchanged && printf 'tick 1\ndeliver 27\n' ;;
        9) exchanged && repeat 10 'tick 1' ;;
        10) exchanged && printf 'put 2 #%s c\ndeliver 26\ndeliver 27\n' "$far" ;;
        11) exchanged && printf 'put 2 #%s c\ndeliver 26\ndeliver 27\ndeliver 28\n' "$far" ;;
        12) exchanged && printf 'get 2 #%s\n' "$far" ;;
        13) exchanged && printf 'get 2 #%s\ndeliver 26\n' "$far" ;;
        14) two_sides 2 && echo 'ask 1' ;;
        15) exchanged && repeat 3000 'ask 1' && echo flow ;;
        16) printf 'script 2\nnode 1 1\nnode 2 2\ntick 1\n' ;;
        17) in_racks ;;
        18) in_racks && printf 'deliver 11\ndeliver 12\n' ;;
    esac
}

entered() {
    meeting
    printf 'deliver 17\ndeliver 20\ndeliver 21\n'
}

# What the nodes and the client have and do afterwards.
afterwards() {
    printf 'flow\nflow\ncalm\nmap 1 4095 4095\nmap 2 4095 4095\nshow 1 #%s\nshow 2 #%s\n' "$far" "$far"
    printf 'ask 2\nflow\nflow\ncget #%s\n' "$far"
}

# Number, sender, receiver and length of the messages of a kind that are in flight, of one length.
in_flight() { # KIND
    awk -v kind="$(printf '%02x' "$1")" '
        $1 == "sent" && substr($5, 1, 2) == kind { flying[$2] = $2 " " $3 " " $4; size[$2] = length($5) / 2; last = $2 }
        $1 ~ /^(deliver|lost|blocked|cut)$/ { delete flying[$2] }
        END { for (i in flying) if (size[i] == size[last]) print flying[i], size[i] }' "$whole" | sort -n
}

# Cuts a message of a kind to each length below its own, of as many messages as there are in each run. But for the lines
# of the cut all is as if it were lost.
cut_to_each_length() { # KIND
    local length front
    sent "$1" >"$script"
    play_whole "kind $1"
    in_flight "$1" >"$folder/flying"
    length="$(awk '{ print $4; exit }' "$folder/flying")"
    { sent "$1" && awk '{ print "lose", $1 }' "$folder/flying" && afterwards; } >"$script"
    play_whole "kind $1, lost"
    mv "$whole" "$folder/lost"
    for ((front = 0; front < length; front += $(wc -l <"$folder/flying"))); do
        awk -v front="$front" '{ if (front < $4) print $1, $2, $3, front; front++ }' "$folder/flying" >"$folder/cuts"
        {
            sent "$1"
            awk 'NR == FNR { cut[$1] = $4; next } { print $1 in cut ? "cut " $1 " " cut[$1] : "lose " $1 }' \
                "$folder/cuts" "$folder/flying"
            afterwards
        } >"$script"
        awk 'NR == FNR { cut[$1] = $0; to[$1] = $3; next }
            $1 == "lost" && $2 in cut { print "cut", cut[$2]; print "short", to[$2]; next } { print }' \
            "$folder/cuts" "$folder/lost" >"$whole"
        play
        check "kind $1, cut to $front bytes and more" is_played
        lengths=$((lengths + $(wc -l <"$folder/cuts")))
    done
}

cut_messages() {
    local kind lengths=0
    for kind in $(seq 18); do cut_to_each_length "$kind"; done
    tell "messages of each kind that is sent, 1 to 18, cut to each of their $lengths shorter lengths: short, and else as" \
        "if lost"
}

# ---- limits

# What a run that is too long for a file writes is counted.
count_written() { # BYTES
    [ "$("$program" <"$script" 2>"$said" | wc -c)" = "$1" ] && says ""
}

has_lines() { # NUMBER PATTERN
    [ "$status" = 0 ] && says "" && [ "$(grep -c "^$2" "$out")" = "$1" ]
}

script_limit() {
    { echo 'node 1' && repeat 16777209 ''; } >"$script"
    echo 'node 1' >"$whole"
    play
    check "16,777,216 bytes" is_played
    echo >>"$script"
    play
    check "16,777,217 bytes" is_refused 6 "script too long"
    tell "16,777,216 bytes of script: played; one more: ended with 6"
}

line_limit() {
    { echo 'node 1' && repeat 1999999 'hash a'; } >"$script"
    play
    check "2,000,000 lines" has_lines 1999999 "hash "
    echo 'hash a' >>"$script"
    play
    check "2,000,001 lines" is_refused 7 "run too long"
    tell "2,000,000 lines of a journal: played; one more: ended with 7"
}

# Lines of so many bytes of script and of transcript.
filled() { # BYTES
    awk -v bytes="$1" '
        function clock(size) { printf "clock 1 %s\n", substr("1111111111111111111", 1, size - 9) }
        BEGIN {
            for (; bytes > 56; bytes -= 20) clock(20)
            for (; bytes > 28; bytes -= 14) clock(14)
            clock(bytes)
        }'
}

text_limit() {
    local limit=536870912 written
    { printf 'node 1\ncalm\n' && repeat 30700 'ask 1' && echo flow; } >"$folder/tables"
    written="$("$program" <"$folder/tables" | wc -c)"
    { cat "$folder/tables" && filled "$((limit - written))"; } >"$script"
    status=-
    check "$limit bytes of text" count_written "$limit"
    { cat "$folder/tables" && filled "$((limit - written + 1))"; } >"$script"
    play
    check "$limit bytes of text and one" is_refused 7 "run too long"
    tell "536,870,912 bytes of text: played; one more: ended with 7"
}

flight_limit() {
    { printf 'node 1\nnode 2\n' && repeat 262144 'tick 1'; } >"$script"
    play
    check "262,144 messages in flight" has_lines 262144 "sent "
    printf 'tick 1\nlose 1\ntick 1\n' >>"$script"
    play
    check "262,145 messages in flight" has_lines 262146 "sent "
    check "262,145 messages in flight" has_lines 1 "full "
    check "262,145 messages in flight" has_lines 1 'full 262145$'
    tell "262,144 messages in flight: kept; one more: lost at once; and kept again where one has left"
}

small_limits() {
    seq -f 'node %g' 16 >"$script"
    cp "$script" "$whole"
    play
    check "16 nodes" is_played
    echo 'node 17' >>"$script"
    play
    check "17 nodes" is_refused 3 "line 17: TooManyNodes"
    tell "16 nodes: played; one more: ended with 3"

    local value
    value="$(printf '%0128d' 0)"
    printf 'node 1\ntick 1\ntick 1\ntick 1\nput 1 #%s %s\n' "$zeros" "$value" >"$script"
    play
    check "a value of 128 bytes" has_lines 1 "apply 1 1.1 1 $zeros 0.1=${value//0/30}\$"
    printf 'node 1\nput 1 #%s %s0\n' "$zeros" "$value" >"$script"
    play
    check "a value of 129 bytes" is_refused 3 "line 2: TooLongValue"
    tell "a value of 128 bytes: applied; one more: ended with 3"
}

limits() {
    script_limit
    line_limit
    text_limit
    flight_limit
    small_limits
}

# ---- valgrind

# What `main` forgets has four roots, blocks to which nothing points any longer: three arrays that grew, of the nodes, the
# lines and the messages in flight, and the client's table of 4,096 entries. Tells of each lost block whether it grew or is
# such a table, the function that asked for it, and its bytes. A proved program shows no functions further out.
lost_blocks() { # LOG
    awk '
        function kind() {
            if (blocks == 1 && asked[2] == "rattle_realloc") return "grown"
            if (blocks == 1 && asked[2] == "rattle_alloc" && asked[3] ~ /^replay_core::/ && bytes % 4096 == 0) return "table"
            return "unknown"
        }
        function end_block() {
            if (count) print kind(), asked[3], bytes
            count = 0
        }
        / are definitely lost / {
            end_block()
            gsub(",", "")
            bytes = ($3 ~ /^\(/) ? substr($3, 2) : $2
            blocks = substr($0, index($0, " bytes in ") + 10) + 0
            count = 0
            is_lost = 1
            next
        }
        is_lost && / (at|by) 0x/ { sub(/.* (at|by) 0x[0-9A-F]+: /, ""); asked[++count] = $1; next }
        { is_lost = 0; end_block() }
        END { end_block() }' "$1" | sort
}

# At most a table and three arrays that grew, no two by the same function.
are_forgotten() { # BLOCKS
    [ "$(grep -c '^unknown' <<<"$1")" = 0 ] && [ "$(grep -c '^grown' <<<"$1")" -le 3 ] &&
        [ "$(grep -c '^table' <<<"$1")" -le 1 ] && [ -z "$(awk '{ print $1, $2 }' <<<"$1" | uniq -d | grep .)" ]
}

watched() {
    if ! command -v valgrind >/dev/null; then
        echo "valgrind: there is none on this machine"
        return
    fi
    local factor lost found=""
    for factor in 2 1; do
        merged "$factor" >"$script"
        play_whole "two sides"
        valgrind -q --error-exitcode=99 --leak-check=full --show-leak-kinds=definite --errors-for-leak-kinds=none \
            --num-callers=30 --log-file="$folder/valgrind" "$program" <"$script" >"$out" 2>"$said"
        status=$?
        check "valgrind: $(head -c 300 "$folder/valgrind")" is_played
        lost="$(lost_blocks "$folder/valgrind")"
        check "valgrind, lost: $lost" are_forgotten "$lost"
        found+=", $(awk 'NF { blocks++; bytes += $3 } END { print bytes + 0, "bytes in", blocks + 0 }' <<<"$lost")"
    done
    tell "valgrind on two sides, with two copies and with one: no error, and nothing lost but the blocks that main" \
        "forgets: ${found#, }"
}

refuse_calls
odd_ends
odd_words
odd_bytes
cut_messages
limits
watched
echo "bench/hostile.sh: $deviations deviations, $SECONDS s"
echo "$passed passed, $failed failed"
[ "$failed" = 0 ]
