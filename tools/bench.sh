#!/usr/bin/env bash
# Counts the instructions that reading a plan file, and the walk of the plan,
# take, for plans of 64, 256 and 1,024 stations.
#
# usage: tools/bench.sh [PROGRAM]        (default: what ./run builds, crates/tosraek/out/tosraek)
#
# `read` and `read+walk` are the counts of a script that reads the plan, or reads
# it and asks for its walk, less that of a script with `newplan` alone: they have
# the hex digits and the printing too.  `Plan::read` is what callgrind counts
# in that function of the library with what it calls, and `station_walk` what it
# counts in that function alone, which calls itself and no other.
set -euo pipefail

here=$(cd "$(dirname "$0")" && pwd)
program=${1:-$here/../crates/tosraek/out/tosraek}
work=$(mktemp -d)
trap 'rm -rf "$work"' EXIT

# The instructions of a whole run of the script in a file.
total_of() {
    valgrind --tool=callgrind --callgrind-out-file="$work/out" "$program" script \
        <"$1" 2>"$work/log" >"$work/answers"
    sed -n 's/.*Collected : //p' "$work/log"
}

# The instructions of the last run that were spent in a function: with its
# callees where the first word is yes.
spent_in() {
    callgrind_annotate --inclusive="$1" --threshold=100 "$work/out" \
        | grep -F "$2" | head -n 1 | tr -d ',' | awk '{ print $1 }'
}

# Lines for make_plan.py: station k is joined to a station before it, by SHAPE.
lines_of() {
    python3 - "$1" "$2" <<'PY'
import random
import sys

count, shape = int(sys.argv[1]), sys.argv[2]
random.seed(count)
names = [f"S{k:04d}" for k in range(count)]
random.shuffle(names)
print(names[0])
for k in range(1, count):
    parent = {"line": k - 1, "star": 0, "tree": random.randrange(k)}[shape]
    print(names[k], names[parent])
PY
}

echo 'newplan P' >"$work/none"
none=$(total_of "$work/none")
printf '%-6s %9s %12s %12s %12s %12s\n' shape stations read read+walk Plan::read station_walk
for shape in line star tree; do
    for count in 64 256 1024; do
        hex=$(lines_of "$count" "$shape" | python3 "$here/make_plan.py" --hex)
        printf 'newplan P\nread P %s\n' "$hex" >"$work/read"
        printf 'newplan P\nread P %s\nwalk P\n' "$hex" >"$work/walk"
        read=$(total_of "$work/read")
        walk=$(total_of "$work/walk")
        printf '%-6s %9d %12d %12d %12s %12s\n' "$shape" "$count" $((read - none)) $((walk - none)) \
            "$(spent_in yes Plan::read)" "$(spent_in no Cave::station_walk)"
    done
done
