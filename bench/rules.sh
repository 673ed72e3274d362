#!/bin/bash
# rules.sh [CONSOLE]
# What a public step costs with rules loaded: the console makes 600,000 steps of an idle thread of 32, without rules and with three sets of rules, in turn, RUNS
# times each (5). Printed: the median processor time a step; what the rules add to that without; and what the same check takes in C (rules.c), in the same run.
set -eu
rounds=5
. "$(dirname "$0")/console.sh"
gcc -std=gnu11 -O2 -o "$work/rules" "$here/rules.c"

# rows as F T G H, a line each: none; one for all pairs; two for each sender; one for each target, and as many that hold no pair
: > "$work/none"
echo "0 255 0 255" > "$work/one"
for s in $(seq 0 31); do echo "$s $s 0 15"; echo "$s $s 16 31"; done > "$work/senders"
for t in $(seq 0 31); do echo "0 31 $t $t"; echo "40 50 0 31"; done > "$work/targets"

steps="step$(printf ' 0%.0s' $(seq 1500))"
for name in none one senders targets; do
    {
        echo "table 32"
        sed 's/.*/rule & yes/' "$work/$name"
        [ ! -s "$work/$name" ] || echo "rules"
        for i in $(seq 400); do echo "$steps"; done
    } > "$work/$name.txt"
done
for round in $(seq "$runs"); do
    for name in none one senders targets; do
        read -r wall cpu rss < <("$work/timerun" "$work/$name.txt" "$work/out" "$console")
        grep -q -v "^noted$\|^made$\|^accepted$\|^idle$" "$work/out" && { echo "rules: WRONG OUTPUT on $name" >&2; exit 1; }
        c=-
        [ $name = none ] || c=$("$work/rules" < "$work/$name")
        echo "$name $cpu $c"
    done
done > "$work/times"
python3 - "$work/times" << 'PY'
import sys
from statistics import median
data = {}
for line in open(sys.argv[1]):
    name, cpu, c = line.split()
    data.setdefault(name, []).append((int(cpu) / 600000, None if c == "-" else float(c)))
base = median(cpu for cpu, c in data["none"])
print("rules     rows   ns a step   more than without   C, the check alone")
for name, rows in (("none", 0), ("one", 1), ("senders", 64), ("targets", 64)):
    step = median(cpu for cpu, c in data[name])
    tail = "" if name == "none" else "%20.0f %20.0f" % (step - base, median(c for cpu, c in data[name]))
    print("%-9s %4d %11.0f%s" % (name, rows, step, tail))
PY
