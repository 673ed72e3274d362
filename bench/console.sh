# Sourced by the scripts that time the console, with its program as their argument: the program, how many rounds, where to work, and timerun. The caller has set `rounds`.
here=$(cd "$(dirname "$0")" && pwd)
name=$(basename "$0" .sh)
console=${1:-$here/../crates/console/out/console}
[ -x "$console" ] || { echo "$name: no program $console; 'rt run < /dev/null' in crates/console builds it" >&2; exit 2; }
runs=${RUNS:-$rounds}
work=$(mktemp -d)
trap 'rm -rf "$work"' EXIT
gcc -std=gnu11 -O2 -o "$work/timerun" "$here/timerun.c"
