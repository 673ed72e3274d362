#!/bin/bash
# bench.sh [PROGRAM [ARG...]]
# Compares bondtrace (or PROGRAM) with two C programs that do the same work, base_unchecked (no well-formedness check per call)
# and base_checked (a full check before every call): each load goes to the three alternately, RUNS times each after one run that
# is not timed and whose output must be the expected one. Printed per load: median times (cpu = user + system, wall), records per
# second, and the median over the rounds of the ratio PROGRAM/base of the same round, with the lowest and highest round.
# The ratio of cpu times is the figure to go by. Environment: RUNS (5), LOADS ("n2 n8 n32 n32hot n8time"). Exit 1 if an output is wrong.
# A load has 200,000 records: of clients that call servers, n2, n8 and n32 by the number of threads, n32hot with one server; of
# receives that are waited for, n8time, mostly ticks and cancels.
set -eu
here=$(cd "$(dirname "$0")" && pwd)
[ $# -ge 1 ] || set -- "$here/../crates/bondtrace/out/bondtrace"
prog=$(command -v -- "$1") || { echo "bench: no program $1; 'rt run < /dev/null' in crates/bondtrace builds bondtrace" >&2; exit 2; }
case $prog in /*) ;; *) prog=$PWD/$prog ;; esac
shift

runs=${RUNS:-5} records=200000
loads=${LOADS:-n2 n8 n32 n32hot n8time}
work=$(mktemp -d)
trap 'rm -rf "$work"' EXIT
dir=$work
for l in start $loads; do
    gzip -dc "$here/loads/$l.bin.gz" > "$dir/$l.bin"
    cp "$here/loads/$l.out" "$dir/$l.out"
done

flags="-std=c11 -D_POSIX_C_SOURCE=200809L -O2"
for b in base_unchecked base_checked; do
    gcc $flags -o "$work/$b" "$here/$b.c"
done
gcc -std=gnu11 -O2 -o "$work/timerun" "$here/timerun.c"

one() { # load name program...: one timed line
    local l=$1 name=$2 got; shift 2
    got=$("$work/timerun" "$dir/$l.bin" "$work/out" "$@")
    cmp -s "$work/out" "$dir/$l.out" || { echo "bench: WRONG OUTPUT of $name on $l" >&2; exit 1; }
    echo "$l $name $got"
}

for l in start $loads; do
    for round in $(seq 0 "$runs"); do
        for who in program base_unchecked base_checked; do
            if [ $who = program ]; then one "$l" $who "$prog" "$@"
            else one "$l" $who "$work/$who"; fi |
                { read -r line; [ "$round" -eq 0 ] || echo "$line"; }
        done
    done
done > "$work/times"

python3 - "$work/times" "$records" "$prog" <<'PY'
import sys
from statistics import median
times, records, prog = sys.argv[1], int(sys.argv[2]), sys.argv[3]
data = {}
for line in open(times):
    l, who, wall, cpu, rss = line.split()
    data.setdefault(l, {}).setdefault(who, []).append((int(cpu), int(wall), int(rss)))
print("program:", prog)
start = data.pop("start")
print("start-up (table record only), median cpu ms: " + ", ".join(
    "%s %.2f" % (w, median(c for c, _, _ in v) / 1e6) for w, v in start.items()))
print("%-8s %-15s %10s %10s %14s %9s %8s" % (
    "load", "", "cpu ms", "wall ms", "records/s", "ns/record", "max KB"))
for l, d in data.items():
    for who in ("program", "base_unchecked", "base_checked"):
        c = median(x for x, _, _ in d[who])
        w = median(x for _, x, _ in d[who])
        print("%-8s %-15s %10.2f %10.2f %14s %9.1f %8d" % (
            l, who, c / 1e6, w / 1e6, format(int(records * 1e9 / c), ","), c / records,
            max(x for _, _, x in d[who])))
print("%-8s %-26s %-24s %s" % ("load", "ratio", "cpu median (low..high)", "wall median (low..high)"))
for l, d in data.items():
    for base in ("base_unchecked", "base_checked"):
        cell = []
        for k in (0, 1):
            r = [a[k] / b[k] for a, b in zip(d["program"], d[base])]
            cell.append("%.2f (%.2f..%.2f)" % (median(r), min(r), max(r)))
        print("%-8s %-26s %-24s %s" % (l, "program/" + base, *cell))
PY
