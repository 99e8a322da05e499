# For scripts that time the twin against the C twin of peer/. Both run in turn, many short runs of each, so that they meet the same
# machine; processor time counts, the best run of each is taken, and what a start costs is subtracted. Other work on the machine slows the
# two sides unlike: where there is any, a script says so.
# Needs $room, a folder.
least=15 most=40
gcc -std=c11 -O2 -Wall -Wextra -o "$room/once" bench/once.c

# both commands in turn on an input, so many times: a line for each run in $room/ours and $room/peers
run_both() { # INPUT OURS PEERS COUNT
    turns=$4
    while [ "$turns" -gt 0 ]; do
        "$room/once" "$room/peers" $3 <"$1" >/dev/null
        "$room/once" "$room/ours" $2 <"$1" >/dev/null
        turns=$((turns - 1))
    done
}
clear_runs() { : >"$room/ours"; : >"$room/peers"; }
best() { sort -n "$1" | awk 'NR == 1 { print $1 }'; }
# the second best of some runs, as so many thousandths above the best
spread_of() { sort -n "$1" | awk 'NR == 1 { best = $1 } NR == 2 { print int(1000 * ($1 - best) / (best + 1)) }'; }

# Sets ours and peers, the microseconds of the best of at least fifteen runs, and of more where the two best of a side are not yet within
# 5 %; runs, how many there were; spread, how far the two best are apart, in per cent, on the side where it is more; and ours_memory
# and peers_memory in KB.
time_both() { # INPUT OURS PEERS START_INPUT OURS_START PEERS_START: the last three do nothing but start
    clear_runs
    run_both "$4" "$5" "$6" "$least"
    ours_start=$(best "$room/ours") peers_start=$(best "$room/peers")
    clear_runs
    runs=$least
    run_both "$1" "$2" "$3" "$least"
    while [ "$runs" -lt "$most" ] && { [ "$(spread_of "$room/ours")" -gt 50 ] || [ "$(spread_of "$room/peers")" -gt 50 ]; }; do
        run_both "$1" "$2" "$3" 1
        runs=$((runs + 1))
    done
    ours=$(($(best "$room/ours") - ours_start)) peers=$(($(best "$room/peers") - peers_start))
    spread=$({ spread_of "$room/ours"; spread_of "$room/peers"; } | sort -n | awk 'END { printf "%.1f", $1 / 10 }')
    ours_memory=$(sort -n "$room/ours" | awk 'NR == 1 { print $2 }') peers_memory=$(sort -n "$room/peers" | awk 'NR == 1 { print $2 }')
}

# a line that says how busy the machine is, where it does more than this script; to be printed at the end
other_work() { awk '$1 > 1.2 { print "the load was " $1 ": other work ran, and the figures are less sure" }' /proc/loadavg; }

# the microseconds of one run
time_of() { # INPUT COMMAND
    : >"$room/calibration"
    "$room/once" "$room/calibration" $2 <"$1" >/dev/null
    best "$room/calibration"
}
seconds() { awk -v n="$1" 'BEGIN { printf "%.2f", n / 1e6 }'; }
ratio() { awk -v a="$1" -v b="$2" 'BEGIN { printf "%.2f", a / b }'; }
# the nanoseconds of each of so many, from microseconds
each() { awk -v n="$1" -v count="$2" 'BEGIN { printf "%.1f", 1000 * n / count }'; }
