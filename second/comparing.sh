# shellcheck shell=bash disable=SC2034,SC2119,SC2120
# What the comparisons of a first program with a second have in common. Each
# sources this file.

# This folder, and one for all that is made, which goes at the end.
here=$(cd "$(dirname "${BASH_SOURCE[0]}")" && pwd)
work=$(mktemp -d)
trap 'rm -rf "$work"' EXIT

# Longest that one call of the first program may take, in seconds.
patience=120

# --- Build and unit tests ---------------------------------------------------

# Builds the second programs and runs their own tests. The programs to compare are
# then `first`, by its path, and `second`, by its name: `prepare PATH NAME`.
prepare() {
    if [[ ! -f $1 || ! -x $1 ]]; then
        echo "$(basename "$0"): $1: no program" >&2
        exit 2
    fi
    first=$(cd "$(dirname "$1")" && pwd)/$(basename "$1")
    second=$work/$2
    "$here/build.sh" "$work"
    "$here/own_tests.sh" "$work"
}

# --- Captures ---------------------------------------------------------------

# What the two programs print for the same captures.
first_out=$work/first.out
second_out=$work/second.out
# Every one of this many captures goes through a pipe too. It shares no factor with
# the 26 of kinds.rs, so that captures of each kind do.
piped_each=17
# The captures for which they print something different, by name.
declare -A differing=()
# Each capture, under its name, with nothing but frames after the last admission that is
# obeyed; other records there change nothing (request #109).
thinned=$work/thinned
as_thinned="with nothing but frames after its last admission"

# Makes captures and goes to their folder; `captures` are their names:
# `make_captures SEED COUNT`.
make_captures() {
    seed=$1
    "$work/generate" "$work/captures" "$seed" "$2"
    cd "$work/captures" || exit
    captures=(*.cap)
    "$work/generate" --thin "$thinned" "${captures[@]}"
}

# Runs the first program on the files given, or on standard input, and sets the
# status.
status=0
run_first() {
    status=0
    timeout "$patience" "$first" "$@" >"$first_out" 2>"$work/errors" || status=$?
}

# Runs it so, and answers whether it prints what the second program did.
agrees() {
    run_first "$@"
    ((status == 0)) && cmp -s "$first_out" "$second_out"
}

# Says how the two differ, for the first ten captures: `differs CAPTURE HOW`.
differs() {
    local name=$1 how=$2
    differing[$name]=yes
    if ((${#differing[@]} > 10)); then
        return
    fi
    echo "differs: capture ${name%.cap} of seed $seed, $how"
    if ((status != 0)); then
        echo "  status $status; $(head -n 1 "$work/errors")"
    fi
    # The first line that only one of them has.
    { diff "$first_out" "$second_out" || true; } >"$work/diff"
    echo "  first program:  $(grep -m 1 '^<' "$work/diff" || echo '(nothing more)')"
    echo "  second program: $(grep -m 1 '^>' "$work/diff" || echo '(nothing more)')"
}

# Gives some of the captures to the first program through a pipe, in small pieces.
compare_piped() {
    local i name piece pieces=(1 7 100) piped=0
    for ((i = 0; i < ${#captures[@]}; i += piped_each)); do
        name=${captures[i]}
        piece=${pieces[piped % 3]}
        if ((piece == 1 && $(wc -c <"$name") > 200000)); then
            piece=100
        fi
        "$second" "$name" >"$second_out"
        if ! agrees < <("$work/generate" --drip "$name" "$piece"); then
            differs "$name" "piped $piece bytes at a time"
        fi
        piped=$((piped + 1))
    done
    echo "captures: ${#captures[@]} of seed $seed, $(cat -- *.cap | wc -c) bytes," \
        "thinned $(cat -- "$thinned"/*.cap | wc -c); $piped of them piped too"
}

# --- What came up -----------------------------------------------------------

# Functions for awk that count what came up. `known` names a thing that has to come
# up, `each_known` one for each of the parts between semicolons, `half_wraps_known` all
# cases of half_wrap.rs, `limits_known` all of limits.rs, `tags_known` all of tags.rs,
# `removals_known` all of removals.rs, `forbidden` a thing that may not, and `came` says that
# one did: any other line, where it is neither. `shown` shows how often each came up, and
# answers whether that is as it must be.
counting='
    function known(name) {
        order[++names] = name
        count[name] += 0
    }
    function each_known(before, parts, after,   n, i, part) {
        n = split(parts, part, ";")
        for (i = 1; i <= n; i++) known(before part[i] after)
    }
    function forbidden(name) {
        known(name)
        may_not[name] = 1
    }
    function half_wraps_known(   sph, i, low, high) {
        split("below 0,at 0,above 0", low, ",")
        split("above 0,at the largest,past 64 bits", high, ",")
        for (sph = 0; sph <= 1; sph++) {
            for (i = 1; i <= 3; i++) known("sph=" sph " half a wrap, L + d " low[i])
            known("sph=" sph " half a wrap, L at the largest")
            for (i = 1; i <= 3; i++) known("sph=" sph " d=-2147483647, L + d " low[i])
            for (i = 1; i <= 3; i++) known("sph=" sph " d=2147483647, L + d " high[i])
        }
    }
    function limits_known(   sph, i, place, wrong, limit) {
        each_known("limit=", "0;1;2147483646;2147483647;any", " admitted")
        each_known("limit=", "2147483648;4294967295;any", " refused")
        wrong = "admitted already;table full;admitted already, table full"
        each_known("limit allowed, ", wrong)
        each_known("limit too large, ", wrong)
        known("limit admitted after one too large")
        each_known("limit allowed in ", "either order;this order only;the other order only")
        each_known("limit record of length ", "2;10;13;15;any")
        each_known("limit record of kind 4, length ", "10;14;any")
        split("below 0;inside;at the largest;past 64 bits", place, ";")
        for (sph = 0; sph <= 1; sph++) {
            limit = "limit sph=" sph
            for (i = 2; i <= 4; i++) {
                each_known(limit " d ", "one below;equal;one above", ", L + d " place[i])
                each_known(limit " d ", "further below;further above", ", L + d " place[i])
            }
            for (i = 1; i <= 2; i++) {
                each_known(limit " -d ", "above;not above", ", L + d " place[i])
                each_known(limit " half a wrap, L + d " place[i] ", limit ",
                    "0;between;the largest")
            }
        }
        each_known("limit=0 d=", "-1;0;1", ", kind 5")
        each_known("limit=1 d=", "1;2", ", kind 5")
        each_known("limit=2147483646 d=", "2147483646;2147483647", ", kind 5")
        each_known("limit=2147483647 d=", "2147483646;2147483647", ", kind 2")
        each_known("limit=2147483647 d=", "2147483646;2147483647", ", kind 5")
        each_known("limit told from ", "0, kind 2;0, kind 5")
        each_known("limit told from ", "the largest;its bytes in the other order")
        each_known("limit told from the ", "first stream\047s;last admitted stream\047s")
        known("limit told from that of the frame before")
        each_known("limit told from a refused admission\047s, kind ",
            "2, allowed;5, allowed;5, too large")
        each_known("limit told from ", "0;the largest;the offset before,",
            " after an accepted frame")
        each_known("limit told from ", "0;the largest;the offset before,",
            " after a refused frame")
    }
    function tags_known(   i, told) {
        each_known("tag=0 length ", "0;1;2;3;4;8;1024;1476;under 1024;over 1024")
        each_known("tag=0 ", "frame of 42 bytes;padding;fn above 0")
        each_known("tag=0 ", "sph=1, tv=0;sph=1, tv=1;dbc expected;dbc another")
        each_known("tag=0 ", "format kept;format another")
        each_known("tag=0, for tag 1 ", "a 13;a 16;a 14;sound")
        each_known("tag=0 time=", "none;outside;late;ahead;unclear;far")
        each_known("tags 0 1, ", "format kept;format another;no format;format all 0")
        each_known("tags 0 1, ", "count goes on;count broken;no count, DBC 0;no count, DBC above 0")
        each_known("tags 0 0 1, count ", "goes on;broken")
        each_known("tags 1 0 ", "seq=ok;seq=break;mr=ok;mr=change")
        each_known("tags 0 1 ", "seq=ok;seq=break;mr=ok;mr=change")
        each_known("tags 0 0 ", "seq=ok;seq=break;mr=ok;mr=change")
        each_known("tag=", "0;1", " first")
        known("tags mixed with no flag but format")
        known("tags 0 and 1 by turns")
        # A frame that is refused 1 is left out, though it may go on to its tag.
        for (i = 2; i <= 11; i++) known("tag=0 refused " i)
        for (i = 2; i <= 11; i++) known("tag=2 or 3 refused " i)
        each_known("tag=0 refused 15, for tag 1 a ", "13;16;14;15")
        for (i = 2; i <= 3; i++) {
            each_known("tag=" i " refused 12, for tag 1 ", "a 13;a 16;a 14;a 15;sound")
        }
        each_known("", "tag=1 in all frames;tag=0 in all frames;tags 0 and 1 in accepted frames")
        told = "tag told from "
        each_known(told "tag ", "2 as 0;2 as 1;3 as 0;3 as 1;of any stream;of a refused frame")
        each_known(told "tag ", "0 not seen;0 not kept;1 not kept after 0")
        each_known(told, "12 for tag 0;13 for tag 0;13 for tag 0 without data;16 for tag 0")
        each_known(told "14 for tag 0", "; by quadlets; by DBS 0")
        known(told "2 for tag 0 over 1468")
        each_known(told, "no stamp;tv not read;SPH read", " for tag 0")
        known(told "stamp of tag 0 in its payload")
        each_known(told "sequence not ", "judged at;judged after;kept at", " tag 0")
        each_known(told "mr not ", "judged at;judged after;kept at", " tag 0")
        each_known(told "dbc", "=ok for tag 0;=ok for tag 0 first")
        each_known(told "dbc of tag 0 ", "by its byte;as 0")
        each_known(told "no count as ", "0;another;none")
        each_known(told "count ", "of any stream;not judged after tag 0")
        each_known(told "count ", "absent after tag 0;0 after tag 0;absent after a refused frame")
        each_known(told "count of tag 0 by ", "its byte;its byte and blocks;DBS 0")
        each_known(told "count moved by ", "1;DBS 0;blocks;quadlets", " at tag 0")
        each_known(told "format flag of ", "tags 0 0;tags 0 0 by bytes;tags 0 1 by the fields kept")
        each_known(told "format flag of ", "tag 0 first;tag 1 first")
        each_known(told "format flag by ", "fields that are 0 with tag 0;the tag alone")
        each_known(told "no format flag of tags ", "0 1;1 0")
    }
    function removals_known(   flags, then) {
        known("removal before any admission")
        each_known("removal of a stream ", "admitted;not admitted")
        each_known("removal of a stream ", "admitted;not admitted", ", table full")
        known("removal again")
        each_known("removal of length ", "2;3;4;5;6;7;8;9;11;12;13;14;15;any")
        each_known("removal of kind ", "259;768;any")
        then = "removal, then "
        each_known(then, "the stream refused 21;the stream refused 21, table full")
        each_known(then, "another refused 22;the stream admitted;a frame refused 15")
        known("removal before the first frame")
        flags = "no flag;seq=break;dbc=break;fmt=change;mr=change"
        each_known("removal between frames, ", flags)
        each_known("removal and admission between frames, ", flags ";limit kept")
        each_known("removal ", "too long;of another kind", " between frames")
        each_known("removal ", "last;before a cut record;of another length cut")
        each_known("removal cut ", "after its kind;within its id;before its last byte")
        each_known("removal ", "with no frames;after all frames;before all frames")
        each_known("removal amid ", "frames;summed offsets")
    }
    function came(name) {
        count[name in count ? name : "any other line"]++
    }
    function shown(   i, name, as_it_must_be) {
        forbidden("any other line")
        as_it_must_be = 1
        for (i = 1; i <= names; i++) {
            name = order[i]
            printf "  %-62s %d%s\n", name, count[name], may_not[name] ? " (none may come up)" : ""
            if (may_not[name] ? count[name] > 0 : count[name] == 0) {
                print (may_not[name] ? "came up, and may not: " : "not covered: ") name
                as_it_must_be = 0
            }
        }
        return as_it_must_be
    }
'

# Says what the comparison of the captures came to, given whether all came up that
# must.
conclude() {
    local covered=$1
    if ((${#differing[@]} > 0)); then
        echo "comparison: ${#captures[@]} captures, ${#differing[@]} differ"
        exit 1
    fi
    if [[ $covered == false ]]; then
        echo "comparison: ${#captures[@]} captures agree, but not all that must come up did"
        exit 1
    fi
    echo "comparison: ${#captures[@]} captures, 0 differ"
}
