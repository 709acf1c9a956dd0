#!/bin/sh
# Counts the instructions of the soundness check on the full heaps of host/deep.c at 1,024 and 4,096 slots, and their ratio,
# which no other work on the machine changes. Needs valgrind, and what host/run.sh built.
set -eu
cd "$(dirname "$0")/.."
kept=target/host/kept
count() {
    target/host/deep keep "$1" "$2" $kept > $kept.name || return 1
    valgrind --tool=callgrind --toggle-collect=talvongre_used --callgrind-out-file=/dev/null target/host/deep check $kept 2>&1 |
        sed -n 's/.*Collected : //p'
}
printf '%-50s %10s %10s %6s\n' 'instructions of the soundness check, slots:' 1,024 4,096 ratio
full=0
while small=$(count $full 1024); do
    big=$(count $full 4096)
    awk -v name="$(cat $kept.name)" -v a="$small" -v b="$big" 'BEGIN { printf "%-50s %10d %10d %6.2f\n", name, a, b, b / a }'
    full=$((full + 1))
done
