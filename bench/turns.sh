#!/bin/sh
# What a turn costs in a session alone, without a host, a history or a report: a toggle of two states, `n = n + 1`,
# three parallel regions that all move, and the toggle in charts of 4 and of 4,096 states.
# Run `rt run` in crates/sc_turn_bench first, or name another program on the command line.
# A time is processor time: that of many turns less that of one, over the difference, each the least of five runs. The
# instructions are those of 2,001 turns less those of one, as valgrind counts them.
# Where a second program is named that measures the first three charts in Qt SCXML, the same run gives the ratios to it.
# It takes a number of seconds for each chart, and writes lines that begin `N:`, `toggle` and `three regions that all
# move`, each with the number of events before `events/s`; those below a line `-- batches of 1000` count.
# usage: bench/turns.sh [PROGRAM [QT_PROGRAM]]
cd "$(dirname "$0")/.." || exit 1
program=${1:-$PWD/crates/sc_turn_bench/out/sc_turn_bench}
peer=${2:-}
folder=$(mktemp -d)
trap 'rm -r "$folder"' EXIT

state() { # ID TARGET: a state that goes to the target at each event
    printf '{"tag":"state","id":"%s","kids":[{"tag":"transition","event":"e","target":"%s"}]}' "$1" "$2"
}

region() { # FIRST SECOND: a state in which two states toggle
    printf '{"tag":"state","kids":[%s,%s]}' "$(state "$1" "$2")" "$(state "$2" "$1")"
}

more() { # COUNT: so many other states, with commas before them
    [ "$1" = 0 ] || seq "$1" | awk '{ printf ",{\"tag\":\"state\",\"id\":\"s%s\"}", $1 }'
}

line() { # TURNS: the line that asks for so many turns of the stored chart
    printf '%s e ' "$1" > "$folder/line"
    cat "$folder/chart" >> "$folder/line"
}

seconds() { # TURNS: the least processor time of five runs
    line "$1"
    for _ in 1 2 3 4 5; do
        command time -f '%U + %S' "$program" < "$folder/line" 2>&1 > /dev/null | bc
    done | sort -n | head -n 1
}

instructions() { # TURNS
    line "$1"
    valgrind --tool=callgrind --callgrind-out-file=/dev/null "$program" < "$folder/line" 2>&1 > /dev/null |
        sed -n 's/.*Collected : //p'
}

peer_rate() { # CHART: the other program's events a second
    sed -n '/^-- batches of 1000/,$p' "$folder/peer" |
        awk -v chart="$1" 'index($0, chart) == 1 { for (i = 2; i <= NF; i++) if ($i == "events/s") print $(i - 1) }'
}

compare() { # CHART: the ratio to the other program, where there is one
    [ -n "$peer" ] || return 0
    rate=$(peer_rate "$1")
    echo "    $(echo "scale=1; 1000000000 / $took / $rate" | bc) times as many as Qt SCXML, which takes $rate events a second"
}

measure() { # NAME TURNS CHILDREN: a chart with these children of its root
    printf '{"tag":"scxml","kids":[%s]}\n' "$3" > "$folder/chart"
    took=$(echo "($(seconds "$2") - $(seconds 1)) * 1000000000 / ($2 - 1)" | bc)
    count=$(echo "($(instructions 2001) - $(instructions 1)) / 2000" | bc)
    echo "$1: $took ns a turn, $((1000000000 / took)) turns a second, $count instructions a turn"
}

[ -z "$peer" ] || QT_QPA_PLATFORM=offscreen "$peer" 2 > "$folder/peer"
toggle="$(state a b),$(state b a)"
datum='{"tag":"datamodel","kids":[{"tag":"data","id":"n","expr":"0"}]}'
assign='{"tag":"assign","location":"n","expr":"n + 1"}'
measure "a toggle of two states" 1000001 "$toggle"
compare "toggle"
measure "n = n + 1" 1000001 "$datum"',{"tag":"state","kids":[{"tag":"transition","event":"e","kids":['"$assign"']}]}'
compare "N:"
measure "three regions that all move" 300001 \
    '{"tag":"parallel","kids":['"$(region a b),$(region c d),$(region f g)"']}'
compare "three regions that all move"
measure "a toggle among 4 states" 1000001 "$toggle$(more 2)"
few=$took
measure "a toggle among 4096 states" 300001 "$toggle$(more 4094)"
echo "ratio of the last two: $(echo "scale=2; $took / $few" | bc)"
