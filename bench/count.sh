#!/bin/bash
# count.sh [CONSOLE]
# What a count costs: four threads, ten steps, 1,048,576 lists, ten times in the console and ten times in C (count.c) with four thread records and with thirty-two, in turn,
# RUNS times each (11). Printed: the median processor time a count, and the median over the rounds of the ratio console/C of the same round, with the lowest and highest.
set -eu
rounds=11
. "$(dirname "$0")/console.sh"
for t in 4 32; do gcc -std=gnu11 -O2 -DT=$t -o "$work/c$t" "$here/count.c"; done

{
    echo "table 4"
    echo "begin 0 send 1 15 7"
    echo "begin 1 receive any 15"
    echo "begin 2 send 1 0 7"
    echo "begin 3 send 1 15 receive 1 0"
    for i in $(seq 10); do echo "count 10"; done
} > "$work/script"

# the last count's lines, as place and count
places() {
    tac "$1" | sed '/^length/q' | tac | tail -n +2 | awk '{ p = 0; for (i = 4; i >= 1; i--) p = 8 * p + ($i >= 0 ? $i : 1 - $i); print p, $5 }'
}

for round in $(seq 0 "$runs"); do
    "$work/timerun" "$work/script" "$work/ours" "$console" > "$work/line"
    read -r wall ours rss < "$work/line"
    for t in 4 32; do
        "$work/timerun" /dev/null "$work/out" "$work/c$t" 10 10 > "$work/line"
        cmp -s "$work/out" <(places "$work/ours") || { echo "count: the counts differ" >&2; exit 1; }
        read -r wall cpu rss < "$work/line"
        [ "$round" -eq 0 ] || echo "$t $ours $cpu"
    done
done > "$work/times"
python3 - "$work/times" << 'PY'
import sys
from statistics import median
rows = [tuple(map(int, line.split())) for line in open(sys.argv[1])]
print("records   ms a count   C, ms   to C (lowest, highest)")
for records in (4, 32):
    mine = [(ours, c) for t, ours, c in rows if t == records]
    ratios = sorted(ours / c for ours, c in mine)
    print("%7d %12.1f %7.1f   %.2f (%.2f, %.2f)" % (records, median(o for o, c in mine) / 1e7, median(c for o, c in mine) / 1e7, median(ratios), ratios[0], ratios[-1]))
PY
