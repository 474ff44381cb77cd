#!/usr/bin/env bash
# The first and the second program on the same captures, in one run, for the listing and for the visit report: instructions per record
# (callgrind) and nanoseconds per record, and the ratio of the first to the second. They run in pairs, one right after the other, and the
# captures come by turns (by default 25 times, ten pairs of either kind each time), so that other work on the machine meets both programs
# and every capture. Each time is that of the fastest run; the ratio of times is the median of the ratios of the pairs, which repeats
# better than that of the fastest runs. Needs `rt`, rustc and valgrind.
set -euo pipefail
cd "$(dirname "$0")/.."

turns=${1:-25}
work=$(mktemp -d)
trap 'rm -rf "$work"' EXIT
# what is measured, the first program for each, and how the names of the second ones begin
measured=(list report)
program() {
    echo "crates/avtp_$1/out/avtp_$1"
}
second=$work/second_
# what they print for the same capture
first_out=$work/first.out
second_out=$work/second.out

for what in "${measured[@]}"; do
    (cd "crates/avtp_$what" && rt run -- --version) >"$work/check.log" 2>&1 || { cat "$work/check.log"; exit 1; }
done
second/build.sh "$work"
"$work/generate" --bench "$work/captures" >/dev/null

# one run, in microseconds, left in `took`
once() {
    local start=$EPOCHREALTIME end
    "$1" "$2" >/dev/null
    end=$EPOCHREALTIME
    took=$((${end/[.,]/} - ${start/[.,]/}))
}

# two pairs of runs, in which each program is the first once: a line for each pair, with the times of both
two_pairs() {
    local what=$1 capture=$2 first_took second_took
    once "$(program "$what")" "$capture"
    first_took=$took
    once "$second$what" "$capture"
    echo "$first_took $took"
    once "$second$what" "$capture"
    second_took=$took
    once "$(program "$what")" "$capture"
    echo "$took $second_took"
}

fastest() {
    sort -g | sed -n 1p
}

median() {
    sort -g | awk '{ value[NR] = $1 } END { print value[int((NR + 1) / 2)] }'
}

instructions() {
    valgrind --tool=callgrind --callgrind-out-file=/dev/null "$1" "$2" 2>&1 >/dev/null | sed -n 's/.*Collected : \([0-9]*\).*/\1/p'
}

# the file with the times of the pairs
pairs_of() {
    echo "$work/$(basename "$2").$1.pairs"
}

# a line of the table: what was measured, on which capture
row() {
    local what=$1 capture=$2 records pairs
    "$(program "$what")" "$capture" >"$first_out"
    "$second$what" "$capture" >"$second_out"
    cmp "$first_out" "$second_out"
    records=$("${second}list" "$capture" | sed -n 's/^end records=//p')
    pairs=$(pairs_of "$what" "$capture")
    awk -v name="$(basename "$capture" .cap)" -v n="$records" \
        -v fi="$(instructions "$(program "$what")" "$capture")" -v si="$(instructions "$second$what" "$capture")" \
        -v ft="$(awk '{ print $1 }' "$pairs" | fastest)" -v st="$(awk '{ print $2 }' "$pairs" | fastest)" \
        -v ratio="$(awk '{ print $1 / $2 }' "$pairs" | median)" 'BEGIN {
            printf "%-12s %9d | %8.1f %8.1f %6.2f | %8.1f %8.1f %6.2f\n",
                name, n, fi / n, si / n, fi / si, 1000 * ft / n, 1000 * st / n, ratio
        }'
}

for _ in $(seq "$turns"); do
    for capture in "$work"/captures/*; do
        for what in "${measured[@]}"; do
            for _ in 1 2 3 4 5; do
                two_pairs "$what" "$capture"
            done >>"$(pairs_of "$what" "$capture")"
        done
    done
done

for what in "${measured[@]}"; do
    printf '%-22s | %-24s | %s\n' "avtp_$what" 'instructions per record' 'nanoseconds per record'
    printf '%-12s %9s | %8s %8s %6s | %8s %8s %6s\n' capture records first second ratio first second ratio
    for capture in "$work"/captures/*; do
        row "$what" "$capture"
    done
done
