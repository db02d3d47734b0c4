#!/bin/sh
# Measures the reading and the check of a pair: of the largest legal region, of one that is as large with all joins on top,
# and of a typical one.
#
#     bench/run.sh [N]
#
# Each pair is read and checked N times (2000 where N is not given) by one run of `trace_check --repeat`, each time on a shelf
# of one region that is emptied before. Prints for each the time of one reading and check, the rows of source and schedule a
# second, and the instructions that valgrind counts for one of them; OPEN is in all of these, and the files are read once.
# Wants Python 3 and valgrind, and a trace_check that was built by `rt run -- --help` in crates/trace_check.
set -e
cd "$(dirname "$0")/.."
times=${1:-2000}
check=crates/trace_check/out/trace_check
where=$(mktemp -d)
trap 'rm -rf "$where"' EXIT
bench/make_regions.py "$where"

# the instructions of so many checks of a pair
count() {
    valgrind --tool=callgrind --callgrind-out-file="$where/profile" \
        "$check" --repeat "$1" "$2.src" "$2.sch" 2>&1 >/dev/null |
        sed -n 's/.*Collected : \([0-9]*\).*/\1/p'
}

# the nanoseconds of so many checks of a pair
clock() {
    begin=$(date +%s%N)
    "$check" --repeat "$1" "$2.src" "$2.sch" >/dev/null
    end=$(date +%s%N)
    echo $((end - begin))
}

for name in largest hardest typical; do
    pair=$where/$name
    rows=$(cat "$pair.src" "$pair.sch" | grep -c '^[OILSXJ]')
    spent=$(($(clock $((times + 1)) "$pair") - $(clock 1 "$pair")))
    instructions=$((($(count 21 "$pair") - $(count 1 "$pair")) / 20))
    echo "$name: $rows rows, $((spent / times)) ns a check, $((rows * times * 1000 / (spent / 1000000 + 1))) rows a second, $instructions instructions a check"
done
