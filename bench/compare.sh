#!/bin/bash
# compare.sh [CONSOLE]
# What a comparison of two logs costs, by their length, of eight words an entry: the console notes both logs and compares them, 100 times and, where they are shorter, more often, and does the same with a first entry of nine words,
# which is refused before anything is compared; the difference is a comparison. The same logs in C (compare.c). RUNS times each (11), in turn. Printed: processor time, by the lowest of each.
set -eu
rounds=11
. "$(dirname "$0")/console.sh"
gcc -std=gnu11 -O2 -o "$work/compare" "$here/compare.c"

# logs of N entries that agree: of one sender and target, or of 40, the receives in another order
logs() {
    awk -v n="$2" -v kind="$1" 'BEGIN {
        pairs = kind == "one" ? 1 : 40
        for (i = 0; i < n; i++) print "sent", i % pairs % 8, 8 + int(i % pairs / 8), i, i, i, i, i, i, i, i
        for (p = pairs - 1; p >= 0; p--) for (i = p; i < n; i += pairs) print "received", 8 + int(p / 8), p % 8, i, i, i, i, i, i, i, i
    }'
}

for kind in one many; do
    for n in 128 256 512; do
        logs $kind $n > "$work/lines"
        sed '1s/$/ 0/' "$work/lines" > "$work/longer"
        for i in $(seq $((51200 / n))); do cat "$work/lines"; echo compare; done > "$work/$kind.$n"
        for i in $(seq $((51200 / n))); do cat "$work/longer"; echo compare; done > "$work/$kind.$n.refused"
        mv "$work/lines" "$work/$kind.$n.c"
    done
done
for round in $(seq "$runs"); do
    for kind in one many; do
        for n in 128 256 512; do
            read -r wall cpu rss < <("$work/timerun" "$work/$kind.$n" "$work/out" "$console")
            [ "$(sort -u "$work/out" | tr '\n' ' ')" = "agree noted " ] || { echo "compare: WRONG OUTPUT on $kind $n" >&2; exit 1; }
            read -r wall without rss < <("$work/timerun" "$work/$kind.$n.refused" "$work/out" "$console")
            read -r answer c < <("$work/compare" < "$work/$kind.$n.c")
            [ "$answer" = 0 ] || { echo "compare: C differs on $kind $n" >&2; exit 1; }
            echo "$kind $n $cpu $without $c"
        done
    done
done > "$work/times"
python3 - "$work/times" << 'PY'
import sys
data = {}
for line in open(sys.argv[1]):
    kind, n, cpu, without, c = line.split()
    data.setdefault((kind, int(n)), []).append((int(cpu), int(without), float(c)))
print("pairs   entries   us a comparison   C, us")
for (kind, n), rows in data.items():
    cpu, without, c = (min(column) for column in zip(*rows))
    print("%-5s %9d %17.0f %7.0f" % (kind, n, (cpu - without) * n / 51200 / 1000, c / 1000))
PY
