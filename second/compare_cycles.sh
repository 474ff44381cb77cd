#!/usr/bin/env bash
# Compares the first program with the second, on questions about cycle time.
#
#   compare_cycles.sh VECTORS [SEED]
#
# VECTORS is the first program: it reads questions on standard input, as the
# second does (cycles.rs says what they are), and writes a line for each. The edge
# questions that are stored with the first program, and their answers, must be
# those that the generator makes and that both programs give. Then both answer the
# questions made from SEED, and their answers must agree byte for byte. At last it
# is shown how often each thing that an answer can say came up, and each that must
# come up has to. The questions are made again by `generate --questions SEED`.
set -euo pipefail

if (($# < 1 || $# > 2)); then
    echo "usage: compare_cycles.sh VECTORS [SEED]" >&2
    exit 2
fi
seed=${2:-101}
# Fewest questions that have to be answered.
fewest=1000000

# shellcheck source-path=SCRIPTDIR source=comparing.sh
source "$(dirname "${BASH_SOURCE[0]}")/comparing.sh"
prepare "$1" second_cycles
# The edge questions stored with the first program.
stored=$here/../crates/cycle_vectors

# --- Edge questions ---------------------------------------------------------

# Answers whether a file is the one stored under the name, and says where it isn't,
# for answers with the first lines that only one of them has.
stored_as() {
    local file=$1 name=$2 what=$3
    if [[ ! -f $stored/$name ]]; then
        echo "edge questions: no file crates/cycle_vectors/$name"
        return 1
    fi
    if ! cmp -s "$stored/$name" "$file"; then
        echo "edge questions: crates/cycle_vectors/$name isn't $what"
        if [[ $name == stdout ]]; then
            { diff "$stored/$name" "$file" || true; } | sed -n '2,9s/^/  /p'
        fi
        return 1
    fi
}

edges=true
"$work/generate" --edge-questions >"$work/edge_questions"
stored_as "$work/edge_questions" stdin "what the generator makes" || edges=false
"$second" <"$work/edge_questions" >"$work/second.edges"
stored_as "$work/second.edges" stdout "what the second program answers" || edges=false
status=0
timeout "$patience" "$first" <"$work/edge_questions" >"$work/first.edges" || status=$?
stored_as "$work/first.edges" stdout "what the first program answers" || edges=false
if ((status != 0)); then
    echo "edge questions: the first program ends with status $status"
    edges=false
fi
if [[ $edges == false ]]; then
    echo "comparison: the edge questions or their answers are not those stored"
    exit 1
fi
echo "edge questions: $(wc -l <"$work/second.edges"), answered as stored"

# --- The questions of the seed ----------------------------------------------

# The answers of either program.
first_answers() {
    "$work/generate" --questions "$seed" | timeout "$patience" "$first"
}
second_answers() {
    "$work/generate" --questions "$seed" | "$second"
}

status=0
{ first_answers || echo $? >"$work/status"; } 2>"$work/errors" |
    cmp -s - <(second_answers) || status=$?
if ((status != 0)); then
    # The first ten that differ, and how many there are.
    paste -d '\n' <(first_answers 2>"$work/errors") <(second_answers) | awk -v seed="$seed" '
        NR % 2 == 1 { first = $0; next }
        first "" == $0 "" { next }
        ++differing <= 10 {
            print "differs: question " NR / 2 " of seed " seed
            print "  first program:  " (first == "" ? "(nothing more)" : first)
            print "  second program: " ($0 == "" ? "(nothing more)" : $0)
        }
        END { print NR / 2 " questions, " differing + 0 " differ" }
    ' >"$work/differing"
    sed '$d' "$work/differing"
    if [[ -s $work/errors ]]; then
        echo "  the first program says: $(head -n 1 "$work/errors")"
    fi
    echo "comparison: $(tail -n 1 "$work/differing")"
    exit 1
fi
if [[ -e $work/status ]]; then
    echo "the first program ends with status $(<"$work/status"); $(head -n 1 "$work/errors")"
    echo "comparison: the answers agree, but the first program fails"
    exit 1
fi

# --- What came up -----------------------------------------------------------

covered=true
second_answers | awk -v fewest="$fewest" -v total="$work/total" "$counting"'
    BEGIN {
        known("cycle time")
        known("nanosecond")
        for (i = 61; i <= 63; i++) known("nanosecond refused " i)
        # A question has no room for a frame that is refused 2.
        for (i = 1; i <= 14; i++) if (i != 2) known("frame refused " i)
        known("frame refused 16")
        known("frame refused 62")
        split("none late ahead", kinds)
        for (i = 1; i <= 3; i++) known("frame " kinds[i])
        each_known("frame none, ", "under 50 bytes;with a QPC;with a SYT;with a SYT over 3071")
        split("-24576 -1 0 1 24575", offsets)
        for (i = 1; i <= 5; i++) known("offset=" offsets[i])
        known("no question")
        answered = 0
    }
    function hex(digits,   number, i) {
        number = 0
        for (i = 1; i <= length(digits); i++)
            number = 16 * number + index("0123456789abcdef", substr(digits, i, 1)) - 1
        return number
    }
    # What a frame that is none has that tells that it has tag 0 (request #108): with tag 1
    # it would be refused or judged.
    function tag_0(   cip, third, syt) {
        if ($2 ~ /=4/) return ", under 50 bytes"
        cip = substr($3, 5)
        third = hex(substr(cip, 5, 2))
        syt = substr(cip, 13)
        if (int(third / 8) % 8 > 0) return ", with a QPC"
        if (int(third / 4) % 2 == 1 || hex(substr(cip, 1, 2)) % 64 == 63 || syt == "ffff") return ""
        return ", with a SYT" (hex(substr(syt, 2)) > 3071 ? " over 3071" : "")
    }
    $0 == "no question" { came($0); next }
    { answered++ }
    /^ns=/ && NF == 6 { came("cycle time"); next }
    /^seconds=/ && NF == 5 && $4 ~ /^ns=/ { came("nanosecond"); next }
    /^seconds=/ && NF == 9 && $4 $5 == "nsrefused" && $7 $8 == "sytrefused" && $6 == $9 {
        came("nanosecond refused " $6)
        next
    }
    /^L=/ && NF == 5 && $4 == "refused" { came("frame refused " $5); next }
    /^L=/ && NF == 5 && $4 == "none" && $5 == "offset=0" { came("frame none" tag_0()); next }
    /^L=/ && NF == 5 && $4 == ($5 ~ /-/ ? "late" : "ahead") {
        came("frame " $4)
        if ($5 in count) came($5)
        next
    }
    { came("any other line") }
    END {
        failed = !shown()
        if (answered < fewest) {
            print "too few questions: " answered ", and " fewest " are the fewest"
            failed = 1
        }
        print NR >total
        exit failed
    }
' || covered=false

questions=$(<"$work/total")
if [[ $covered == false ]]; then
    echo "comparison: $questions questions agree, but not all that must come up did"
    exit 1
fi
echo "comparison: $questions questions, 0 differ"
