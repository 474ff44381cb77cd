#!/usr/bin/env bash
# Compares the first programs for whole source packets with the second, on generated
# captures.
#
#   compare_packets.sh PACKETS VECTORS [SEED [COUNT]]
#
# PACKETS and VECTORS are the first programs: they do as the second does with an id and a
# capture, and with --answers (packets.rs says what that is). The edges that are stored with
# VECTORS, and their answers, must be those that the generator makes and that both programs
# give. Then both go through COUNT captures made from SEED, and what they write must agree
# byte for byte: the answers to each frame, and the packets with the line about them. Some
# captures also go to the first programs on standard input, through a pipe in small pieces,
# and with the stream's id in hexadecimal. What is written about one capture has to go
# together, and PACKETS has to say what is wrong where it is given no id or no capture.
# Then it is shown how often each thing that an answer can say came up, and each case of
# source packets (whole_packets.rs says which there are), and each that must come up has to;
# nearly all have to in the edges, too. A capture that differs is named by its number; it
# and the id are made again by `generate --packets DIR SEED COUNT`.
set -euo pipefail

if (($# < 2 || $# > 4)); then
    echo "usage: compare_packets.sh PACKETS VECTORS [SEED [COUNT]]" >&2
    exit 2
fi

# shellcheck source-path=SCRIPTDIR source=comparing.sh
source "$(dirname "${BASH_SOURCE[0]}")/comparing.sh"
vectors=$(whole_path "$2")
prepare "$1" second_packets
check_edges "packet edges" packet_vectors --packet-edges "$vectors" "$second" --answers
generate_captures "${3:-110}" "${4:-600}" --packets

# --- Packets and answers ----------------------------------------------------

# What the second program writes of the capture at hand: the packets, and the line about
# them.
packets=$work/packets
line=$work/line
# The answers of all captures, each after a line that names the capture, and before the
# line about its packets.
answers=$work/answers
: >"$answers"
# Each capture after the bytes of its id, under its name.
inputs=$work/inputs
mkdir "$inputs"
mapfile -t ids < <(cat -- *.id | od -An -v -w8 -tu8 --endian=big | tr -d ' ')
mapfile -t hex_ids < <(cat -- *.id | od -An -v -w8 -tx8 --endian=big | tr -d ' ')

# Packets and the line about them, as text.
in_text() {
    od -An -v -w24 -tx1 "$1"
    cat "$2"
}

# Compares the packets of the capture at hand, which PACKETS finds by these words:
# `compare_packets HOW WORD..`.
compare_packets() {
    local how=$1
    shift
    run_first "$@"
    if ((status == 0)) && cmp -s "$first_out" "$packets" && cmp -s "$work/errors" "$line"; then
        return
    fi
    in_text "$packets" "$line" >"$second_out"
    in_text "$first_out" "$work/errors" >"$work/lines"
    mv "$work/lines" "$first_out"
    differs "$name" "$how"
}

# Compares the answers to each frame of it, which VECTORS reads: `compare_answers HOW`.
compare_answers() {
    cp "$work/second.answers" "$second_out"
    first=$vectors agrees || differs "$name" "$1"
}

# Answers whether the bytes in the answers are those of the packets.
bytes_agree() {
    sed -n 's/^[0-9]* packet .* bytes=//p' "$work/second.answers" | tr -d '\n' |
        cmp -s - <(od -An -v -tx1 "$packets" | tr -d ' \n')
}

# Gives the capture at hand to the first programs in other ways, as the nth: `by_pipe N`.
by_pipe() {
    local hex=${hex_ids[i]} piece
    choose_piece "$name" "$1"
    compare_packets "on standard input" "$id" <"$name"
    compare_packets "on standard input, as -" "0x$hex" - <"$name"
    compare_packets "piped $piece bytes at a time" "0x${hex^^}" \
        < <("$work/generate" --drip "$name" "$piece")
    hex=${hex#"${hex%%[!0]*}"}
    compare_packets "with its id in as few digits as it has" "0x${hex:-0}" "$name"
    compare_answers "answered when piped $piece bytes at a time" \
        < <("$work/generate" --drip "$inputs/$name" "$piece")
}

piped=0
for ((i = 0; i < ${#captures[@]}; i++)); do
    name=${captures[i]}
    id=${ids[i]}
    cat "${name%.cap}.id" "$name" >"$inputs/$name"
    "$second" "$id" "$name" >"$packets" 2>"$line"
    "$second" --answers <"$inputs/$name" >"$work/second.answers"
    { echo "capture ${name%.cap}"; cat "$work/second.answers" "$line"; } >>"$answers"
    if ! bytes_agree; then
        differing[$name]=yes
        echo "differs: capture ${name%.cap} of seed $seed, its answers from its packets"
    fi
    compare_packets "from its file" "$id" "$name"
    compare_answers "answered" <"$inputs/$name"
    if ((i % piped_each == 0)); then
        by_pipe "$piped"
        piped=$((piped + 1))
    fi
done
echo "captures: ${#captures[@]} of seed $seed, $(cat -- *.cap | wc -c) bytes;" \
    "$piped of them piped too"

# --- Words ------------------------------------------------------------------

# Gives PACKETS words that are no id or no capture: nothing was read to its end.
no_packets() {
    complains "$@"
    if grep -q '^packets=' "$work/errors"; then
        differing[$*]=yes
        echo "differs: given $*, the first program tells of packets"
    fi
}

for word in x 12a -1 +1 0x 0X1 0xg 0x+1 18446744073709551616 0x10000000000000000; do
    no_packets "$word" "${captures[0]}"
done
no_packets 1 no-such.cap
no_packets 1 .
no_packets 1 "${captures[0]}" "${captures[0]}"

# --- What came up -----------------------------------------------------------

# Shows what came up in the answers and cases given, and answers whether that is as it must
# be. Of the edges, which are one capture, not all has to: `came_up edges|captures FILE..`.
came_up() {
    local of=$1
    shift
    awk -v of="$of" "$counting"'
        function refusals_known(   number) {
            for (number = 1; number <= 16; number++) {
                known("packet refused " number)
                known("packet across a frame refused " number)
                # A frame that is refused 1 may end before its id.
                if (number > 1 && number != 15) known("packet refused " number " of another stream")
            }
            each_known("packet refused ", "50;51;52")
            each_known("packet across a frame refused ", "50;51;52")
            each_known("packet refused 15, ", "tag 0;SPH 0;over 192 bytes;sound;one bit off")
            each_known("packet refused 50, SPH ", "0;1")
            each_known("packet refused 51, ", "over 192 bytes;within 192 bytes")
        }
        function packets_known(   fn, frames) {
            for (fn = 0; fn <= 3; fn++) {
                each_known("packet fn=" fn, "; of 192 bytes; no blocks")
                for (frames = 1; frames <= 2 ^ fn; frames++)
                    known("packet fn=" fn " over " frames " frames")
                each_known("packet refused 52 fn=" fn ", DBS ", "one over;0;any")
                each_known("packet refused 52 fn=" fn ", DBS ", "one over;0;any", ", no blocks")
            }
            each_known("packet ", "padding;padding of a block;over 256 blocks;wrap in a frame")
            each_known("packet ", "from a wrap on over frames;first block no start;given again")
            each_known("packet across ", "a sequence break;an mr change;an FMT change")
            each_known("packet across no blocks, ", "count going on;another count")
            each_known("packet across a record ", "of kind 2;of kind 5;refused 42;refused 43;refused 44")
        }
        function drops_known(   by) {
            by = "count;FN;count and DBS;count and FN;DBS and FN;count and DBS and FN"
            each_known("packet dropped by ", by, ", a start")
            # With another DBS alone, the block that was expected is no start.
            each_known("packet dropped by ", by ";DBS", ", no start")
            each_known("packet dropped ", "by its last block again;by its first block again")
            known("packet dropped 1 block short")
            each_known("packet block passed over after ", "the beginning;a packet;a drop;another")
        }
        function faults_known(   told) {
            told = "packet told from "
            each_known(told, "50 before 15;51 before 15;52 before 15;51 before 50;52 before 50")
            each_known(told, "52 before 51;no 15;no 51;15 by the upper half;15 by the lower half")
            each_known(told, "room of 188;room of 196;52 by the block;52 with a payload only")
            each_known(told, "DBS 0 as nothing")
            each_known(told "drop at ", "a reader\047s number;15;50;51;52;each frame;the end")
            each_known(told "drop at ", "a sequence break;an mr change;an FMT change")
            each_known(told "drop without blocks", "; by the count")
            each_known(told, "padding as blocks;count past 255;DBS not compared;FN not compared")
            each_known(told "count ", "not compared;compared in its lowest FN bits")
            known(told "repeated block left out")
            each_known(told "start at ", "any block;a frame\047s first block")
            each_known(told "start at ", "a frame\047s first block;each eighth block;count 0", " only")
            known(told "start by the FN before")
            each_known(told "dropping block ", "begins nothing;begins a packet;not passed over")
            each_known(told "drop ", "not counted;counted by blocks;counted while waiting")
            each_known(told, "drop counted twice;dropped blocks passed over")
            each_known(told, "blocks passed over not counted;FN 0 never whole")
            each_known(told "whole ", "one block short;one block late;with 8 blocks;with 192 bytes")
            each_known(told, "one packet of a frame given;repeated packet not given")
            each_known(told "stamp by the ", "frame\047s first block;frame\047s first start")
            each_known(told "stamp ", "by the last block;by the AVTP timestamp;in the other order")
        }
        function answers_known() {
            each_known("answers: ", "no packet;one packet;several packets;several of a frame")
            each_known("answers: ", "dropped above 0;passed above 0;unfinished above 0")
            known("answers: nothing but the end")
        }
        BEGIN {
            refusals_known()
            packets_known()
            drops_known()
            faults_known()
            known("packets unfinished before a cut record")
            if (of == "captures") {
                each_known("packets ", "unfinished at the end;split in all 128 ways")
                each_known("packets of ", "an empty capture;id 0;id 18446744073709551615")
                answers_known()
            }
            forbidden("packet judged otherwise")
        }
        # The number after the equals sign, given what is before it.
        function number(word, name) {
            return word ~ "^" name "=[0-9]+$" ? substr(word, length(name) + 2) + 0 : -1
        }
        function packet_sound(   place, bytes) {
            if (NF != 5 || $5 !~ /^bytes=[0-9a-f]+$/) return 0
            if ($1 != record) { if ($1 <= record) return 0; of_frame = last_place = 0 }
            record = $1
            place = number($3, "next")
            bytes = substr($5, 7)
            if (place <= last_place || number($4, "stamp") != hex(substr(bytes, 1, 8))) return 0
            last_place = place
            of_frame++
            return length(bytes) % 8 == 0 && length(bytes) <= 384
        }
        function counts_sound(dropped_now, passed_now,   sound) {
            sound = dropped_now >= dropped && passed_now >= passed
            dropped = dropped_now
            passed = passed_now
            return sound
        }
        function frame_sound(   of_this) {
            of_this = $1 == record ? of_frame : 0
            if ($1 < record || $1 == record && !of_frame || NF != 6) return 0
            if (of_this > 1) came("answers: several of a frame")
            record = $1
            of_frame = 0
            packets += of_this
            unfinished = number($6, "unfinished")
            if (unfinished > 0) came("answers: unfinished above 0")
            return number($3, "packets") == of_this && unfinished >= 0 && unfinished < 192 &&
                unfinished % 4 == 0 && counts_sound(number($4, "dropped"), number($5, "passed"))
        }
        function end_sound() {
            if (record == 0) came("answers: nothing but the end")
            return NF == 3 && !of_frame && number($2, "dropped") == dropped && number($3, "passed") == passed
        }
        function line_sound() {
            came("answers: " (packets > 1 ? "several packets" : packets ? "one packet" : "no packet"))
            if (dropped > 0) came("answers: dropped above 0")
            if (passed > 0) came("answers: passed above 0")
            return $0 == "packets=" packets " dropped=" dropped " passed_over=" passed
        }
        function answer_sound() {
            if ($1 == "end") return end_sound()
            if ($1 ~ /^packets=/) return line_sound()
            if ($2 == "packet") return packet_sound()
            if ($2 == "frame") return frame_sound()
            if ($2 != "refused" || NF != 3 || $1 <= record || of_frame) return 0
            record = $1
            return 1
        }
        $1 == "capture" && NF == 2 {
            record = of_frame = packets = dropped = passed = 0
            next
        }
        $1 == "packet" || $1 == "packets" { came($0); next }
        !answer_sound() { came("any other line") }
        END { exit !shown() }
    ' "$@"
}

covered=true
"$work/second_cases" --packets "$work/edges" >"$work/cases"
if ! came_up edges "$work/cases" >"$work/shown"; then
    grep -E '^(not covered|came up)' "$work/shown" | sed 's/^/packet edges: /'
    covered=false
fi
"$work/second_cases" --packets "$inputs"/* >"$work/cases"
came_up captures "$answers" "$work/cases" || covered=false

conclude "$covered"
