#!/usr/bin/env bash
# Compares the first report program with the second, on generated captures.
#
#   compare_reports.sh [--million] REPORTER [SEED [COUNT]]
#
# REPORTER is the first program: it reports the capture file named, or a capture on
# standard input. Both programs report COUNT captures made from SEED, each in a call
# of its own, and their visit reports must agree byte for byte; some captures also go
# to the first program through a pipe in small pieces. With all records but frames left
# out after a capture's last admission, the first program has to print the same report.
# With --million one more is reported, of about 200 million bytes, in which a stream has
# more ahead or late frames than are summed. The first program has to say what is wrong
# where it is given no capture or two. Then it is shown how often each thing that a
# report can say came up, and each case of half a wrap, of transit limits, of tags and of
# removals, which it doesn't show (half_wrap.rs, limits.rs, tags.rs and removals.rs say
# which there are), and each that must come up has to. A capture that differs is named by
# its number; it is made again by `generate DIR SEED COUNT`, or `generate --million FILE`.
set -euo pipefail

million=false
if [[ ${1-} == --million ]]; then
    million=true
    shift
fi
if (($# < 1 || $# > 3)); then
    echo "usage: compare_reports.sh [--million] REPORTER [SEED [COUNT]]" >&2
    exit 2
fi

# shellcheck source-path=SCRIPTDIR source=comparing.sh
source "$(dirname "${BASH_SOURCE[0]}")/comparing.sh"
prepare "$1" second_report
make_captures "${2:-104}" "${3:-400}"

# --- Reports ----------------------------------------------------------------

reports=$work/reports
: >"$reports"

# Compares the two reports of a capture, and keeps one, after a line that names the
# capture.
compare_report() {
    local name=$1
    "$second" "$name" >"$second_out"
    { echo "capture ${name%.cap}"; cat "$second_out"; } >>"$reports"
    if ! agrees "$name"; then
        differs "$name" "reported from its file"
    fi
}

for name in "${captures[@]}"; do
    compare_report "$name"
    agrees "$thinned/$name" || differs "$name" "reported $as_thinned"
done
compare_piped
if [[ $million == true ]]; then
    "$work/generate" --million million.cap
    compare_report million.cap
    captures+=(million.cap)
fi

# --- Names ------------------------------------------------------------------

# Gives the first program names that stand for no capture or for two: as the second
# does, it has to say what is wrong, and to print no report. Its exit status is 0 in
# every case.
complains() {
    run_first "$@"
    if [[ -s $first_out || ! -s $work/errors ]]; then
        differing[$*]=yes
        echo "differs: given $*, the first program doesn't just say what is wrong;" \
            "status $status, $(wc -c <"$first_out") bytes printed"
    fi
}

name=${captures[${#captures[@]} / 2]}
complains no-such.cap
complains .
complains "$name" "$name"
"$second" "$name" >"$second_out"
agrees - <"$name" || differs "$name" "on standard input, as -"

# --- What came up -----------------------------------------------------------

# Cases are looked for in the captures of the seed only.
"$work/second_cases" [0-9]*.cap | sed -nE '/^(sph=|limit|tag|removal)/p' >"$work/cases"
covered=true
awk -v million="$million" "$counting"'
    BEGIN {
        known("report of no stream")
        known("report of one stream")
        known("report of 2 to 63 streams")
        known("report of 64 streams")
        known("ids not in order")
        known("id 0")
        known("id 18446744073709551615")
        # The columns after the id, up to the kinds.
        split("frames sequence block format mr none cut outside late ahead unclear far", column)
        for (i = 1; i <= 12; i++) if (column[i] != "cut") known(column[i] " above 0")
        known("none: no frame")
        known("none: frames of other kinds")
        known("none: unclear frames")
        known("none: far frames")
        known("none: far frames alone")
        known("none: far, unclear and outside")
        known("unclear beside late or ahead")
        known("far beside late")
        known("far beside ahead")
        known("far beside late and ahead")
        known("far beside unclear")
        known("far beside outside")
        known("only late")
        known("only ahead")
        known("smallest -2147483647")
        known("largest 2147483647")
        known("smallest below largest")
        known("sum below 0")
        known("sum 0")
        known("sum above 0")
        known("sum past 32 bits")
        known("mean over 1")
        known("mean over several")
        known("mean that could be reduced")
        known("mean 0 over several")
        if (million == "true") {
            known("million: some not summed")
            known("million: 1000000, all summed")
            known("million: 999999, all summed")
            known("million: far beside some not summed")
            known("million: far beside 1000000, all summed")
            known("million: far beside 999999, all summed")
        }
        half_wraps_known()
        limits_known()
        tags_known()
        removals_known()
        # A frame whose stamp would be cut is refused 14.
        forbidden("cut above 0")
        # Half a wrap is unclear, and not summed (request #106).
        forbidden("smallest -2147483648")
        forbidden("not summed above 0")
    }
    function below(id, other) {
        return length(id) == length(other) ? id "" < other "" : length(id) < length(other)
    }
    function common_factor(a, b,   rest) {
        while (b) {
            rest = a % b
            a = b
            b = rest
        }
        return a
    }
    # Answers whether a line is one of a report, with numbers that go together.
    function sound() {
        if (NF != 18 || $7 + $8 + $9 + $10 + $11 + $12 + $13 != $2) return 0
        if ($10 + $11 == 0) return /^[0-9 ]+ none none none none 0$/
        if (!/^[0-9 ]+ -?[0-9]+ -?[0-9]+ -?[0-9]+ -?[0-9]+\/[0-9]+ [0-9]+$/) return 0
        # Where all are summed, the smallest tells if any is late, the largest if any is ahead.
        if ($18 == 0 && (($10 > 0) != ($14 < 0) || ($11 > 0) != ($15 >= 0))) return 0
        return $14 <= $15 && $17 == $16 "/" ($10 + $11 - $18)
    }
    # Counts what a line says of offsets.
    function offsets_came(   summed) {
        summed = $10 + $11 - $18
        if ($10 == 0 || $11 == 0) came($10 == 0 ? "only ahead" : "only late")
        if ($14 <= -2147483647) came("smallest " $14)
        if ($15 == 2147483647) came("largest 2147483647")
        if ($14 < $15) came("smallest below largest")
        came("sum " ($16 < 0 ? "below 0" : $16 > 0 ? "above 0" : "0"))
        if ($16 < -2147483648 || $16 > 4294967295) came("sum past 32 bits")
        came(summed == 1 ? "mean over 1" : "mean over several")
        if (common_factor($16 < 0 ? -$16 : $16, summed) > 1) came("mean that could be reduced")
        if ($16 == 0 && summed > 1) came("mean 0 over several")
        if (capture == "million") million_came($18 ? "some not summed" : summed ", all summed")
        else if ($18 > 0) came("not summed above 0")
    }
    # Counts how many of the first million of a stream were summed.
    function million_came(how) {
        came("million: " how)
        if ($13 > 0) came("million: far beside " how)
    }
    # Counts what a line says of far frames, of which there are some.
    function far_came() {
        if ($14 == "none") came("none: far frames")
        if ($13 == $2) came("none: far frames alone")
        if ($14 == "none" && $12 > 0 && $9 > 0) came("none: far, unclear and outside")
        if ($10 > 0) came("far beside late")
        if ($11 > 0) came("far beside ahead")
        if ($10 > 0 && $11 > 0) came("far beside late and ahead")
        if ($12 > 0) came("far beside unclear")
        if ($9 > 0) came("far beside outside")
    }
    function report_came() {
        if (streams < 2) came("report of " (streams ? "one stream" : "no stream"))
        else came("report of " (streams < 64 ? "2 to 63" : streams) " streams")
        if (disordered) came("ids not in order")
    }
    $1 == "capture" && NF == 2 {
        if (NR > 1) report_came()
        capture = $2
        streams = disordered = 0
        next
    }
    /^(sph=|limit|tag|removal)/ { came($0); next }
    !sound() { came("any other line"); next }
    {
        if (streams++ && below($1, last)) disordered = 1
        last = $1
        if ($1 == "0" || $1 == "18446744073709551615") came("id " $1)
        for (i = 1; i <= 12; i++) if ($(i + 1) > 0) came(column[i] " above 0")
        if ($14 != "none") offsets_came()
        else came($2 == 0 ? "none: no frame" : "none: frames of other kinds")
        if ($12 > 0) came($14 == "none" ? "none: unclear frames" : "unclear beside late or ahead")
        if ($13 > 0) far_came()
    }
    END {
        report_came()
        exit !shown()
    }
' "$reports" "$work/cases" || covered=false

conclude "$covered"
