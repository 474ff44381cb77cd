#!/usr/bin/env bash
# Compares the first listing program with the second, on generated captures.
#
#   compare.sh LISTER [SEED [COUNT]]
#
# LISTER is the first program: it lists capture files by name, or a capture on
# standard input. Both programs list COUNT captures made from SEED, and their
# listings must agree byte for byte; some captures also go to the first program
# through a pipe in small pieces. With all records but frames left out after a
# capture's last admission, the first program has to list those frames as before, but
# for their numbers. Then it is shown how often each thing that a listing can say came
# up, and each case of a rule that it doesn't show (starts.rs, qpc.rs, half_wrap.rs,
# limits.rs, tags.rs and removals.rs say which there are), and each that must come up
# has to. A capture that differs is named by its number; it is made again by
# `generate DIR SEED COUNT`.
set -euo pipefail

if (($# < 1 || $# > 3)); then
    echo "usage: compare.sh LISTER [SEED [COUNT]]" >&2
    exit 2
fi
# Files listed by one call.
batch_size=100

# shellcheck source-path=SCRIPTDIR source=comparing.sh
source "$(dirname "${BASH_SOURCE[0]}")/comparing.sh"
prepare "$1" second_list
make_captures "${2:-1722}" "${3:-1200}"

# --- Listings ---------------------------------------------------------------

# Answers whether the first program lists the captures given as the second does.
alike() {
    "$second" "$@" >"$second_out"
    agrees "$@"
}

# Takes the numbers off the lines of listings. After a capture's last admission it keeps
# the lines of frames only, or all: `without_numbers frames|all`.
without_numbers() {
    awk -v keep="$1" '
        function print_held(all,   i) {
            for (i = 1; i <= held; i++) if (all || of_frame[i]) print line[i]
            held = 0
        }
        $1 == "avtp" { print; next }
        $1 == "end" { print_held(keep == "all"); next }
        {
            of_frame[++held] = $2 == "frame" || $2 == "refused" && $3 <= 16
            line[held] = substr($0, length($1) + 2)
        }
        $2 == "admitted" { print_held(1) }
    '
}

# Answers whether the first program lists the captures given, thinned, as the second lists
# the same records of the whole ones.
alike_thinned() {
    "$second" "$@" | without_numbers frames >"$second_out"
    run_first "${@/#/$thinned/}"
    without_numbers all <"$first_out" >"$work/lines"
    mv "$work/lines" "$first_out"
    ((status == 0)) && cmp -s "$first_out" "$second_out"
}

# Compares all captures, many in one call: `compare_batches ALIKE HOW`.
compare_batches() {
    local alike=$1 how=$2 from name batch found
    for ((from = 0; from < ${#captures[@]}; from += batch_size)); do
        batch=("${captures[@]:from:batch_size}")
        if "$alike" "${batch[@]}"; then
            continue
        fi
        found=false
        for name in "${batch[@]}"; do
            if ! "$alike" "$name"; then
                differs "$name" "$how"
                found=true
            fi
        done
        if [[ $found == false ]]; then
            "$alike" "${batch[@]}" || true
            differs "${batch[0]}" "$how, in one call with the ${#batch[@]} from it on"
        fi
    done
}

compare_batches alike "listed from its file"
compare_batches alike_thinned "listed $as_thinned"
compare_piped

# --- What came up -----------------------------------------------------------

"$second" "${captures[@]}" >"$work/listings"
"$work/second_cases" "${captures[@]}" >"$work/cases"
covered=true
awk "$counting"'
    BEGIN {
        for (i = 1; i <= 16; i++) known("refused " i)
        split("21 22 24 41 42 43 44", more)
        for (i = 1; i <= 7; i++) known("refused " more[i])
        each_known("seq=", "ok;break")
        each_known("dbc=", "ok;break;none")
        each_known("fmt=", "ok;change")
        each_known("mr=", "ok;change")
        split("none outside late ahead unclear far", kinds)
        for (i = 1; i <= 6; i++) known("time=" kinds[i])
        known("time=outside below 0")
        known("time=outside past 64 bits")
        known("time=ahead offset=0")
        known("time=ahead offset=2147483647")
        known("time=far offset=1")
        known("time=far offset=2147483647")
        split("-2147483648 -2147483647 -1 0 1 2147483647", offsets)
        for (i = 1; i <= 6; i++) known("offset=" offsets[i])
        half_wraps_known()
        limits_known()
        tags_known()
        removals_known()
        known("admitted")
        known("end records=0")
        split("start first,wrap after start,several starts,dbs=0 start,no blocks", any, ",")
        for (i = 1; i <= 5; i++) for (fn = 0; fn <= 3; fn++) known("sph fn=" fn " " any[i])
        # With FN 0 every block opens a source packet.
        split("start within,start last,no start,wrap up to start,dbs=0 no start", above, ",")
        for (i = 1; i <= 5; i++) for (fn = 1; fn <= 3; fn++) known("sph fn=" fn " " above[i])
        for (i = 1; i <= 7; i++) known("qpc=" i " alone")
        # A frame that is refused 1 ends before QPC.
        for (i = 2; i <= 15; i++) known("qpc with " i)
        split("seq dbc fmt mr", shows)
        for (i = 1; i <= 4; i++) known("qpc shows in " shows[i])
        # A block is never shorter than a stamp, so a frame whose stamp would be
        # cut is refused 14.
        forbidden("time=cut")
        # No record of a capture is obeyed that removes a stream (request #109).
        forbidden("refused 23")
    }
    # Half a wrap is unclear, and nothing else is (request #106).
    function half_wrap_sound() {
        return ($7 == "time=unclear") == ($8 == "offset=-2147483648")
    }
    # A far frame is above a limit, which is 0 or more (request #107).
    function far_sound() {
        return $7 != "time=far" || $8 ~ /^offset=[1-9]/
    }
    # What a line says that is to come up with one kind of time only.
    function at_an_edge() {
        return ($7 " " $8) in count
    }
    /^(sph|qpc|limit|tag|removal)/ { came($0); next }
    $2 == "refused" && NF == 3 { came("refused " $3); next }
    $2 == "admitted" && NF == 2 { came($2); next }
    $2 == "frame" && NF == 8 && half_wrap_sound() && far_sound() {
        for (i = 3; i <= 7; i++) came($i)
        # An offset of 0 that stands for none is no edge.
        if ($7 != "time=none" && $8 in count) came($8)
        if (at_an_edge()) came($7 " " $8)
        if ($7 == "time=outside") came($8 ~ /-/ ? $7 " below 0" : $7 " past 64 bits")
        next
    }
    $0 == "avtp listing 1" { next }
    /^end records=[0-9]+$/ { if ($2 == "records=0") came($0); next }
    { came("any other line") }
    END { exit !shown() }
' "$work/listings" "$work/cases" || covered=false

conclude "$covered"
