//! The lines of a listing.

use crate::frame::Tag;
use crate::outcome::Outcome;
use crate::presentation::Presentation;
use crate::refusal::Refusal;
use crate::stream::Flags;
use crate::table::Reception;

/// Appends the first line.
pub fn push_start(lines: &mut Vec<u8>) {
    lines.extend_from_slice(b"avtp listing 1\n");
}

/// Appends the line of record number `number`, which isn't refused.
pub fn push_outcome(lines: &mut Vec<u8>, number: u64, outcome: &Outcome) {
    push_decimal(lines, number);
    match outcome {
        Outcome::Frame(reception) => push_reception(lines, reception),
        Outcome::Admitted => lines.extend_from_slice(b" admitted\n"),
    }
}

/// Appends the line of record number `number`, which is refused.
pub fn push_refusal(lines: &mut Vec<u8>, number: u64, refusal: Refusal) {
    push_decimal(lines, number);
    lines.extend_from_slice(b" refused ");
    push_decimal(lines, refusal.number());
    lines.push(b'\n');
}

/// Appends the last line.
pub fn push_end(lines: &mut Vec<u8>, records: u64) {
    lines.extend_from_slice(b"end records=");
    push_decimal(lines, records);
    lines.push(b'\n');
}

/// The rest of an accepted frame's line.
fn push_reception(lines: &mut Vec<u8>, reception: &Reception) {
    let Flags { sequence, block, format, mr } = reception.flags;
    let Presentation { kind, offset, .. } = reception.presentation;
    lines.extend_from_slice(if sequence { b" frame seq=break" } else { b" frame seq=ok" });
    lines.extend_from_slice(match (reception.frame.tag, block) {
        (Tag::NoCip, _) => b" dbc=none",
        (Tag::Cip, true) => b" dbc=break",
        (Tag::Cip, false) => b" dbc=ok",
    });
    lines.extend_from_slice(if format { b" fmt=change" } else { b" fmt=ok" });
    lines.extend_from_slice(if mr { b" mr=change time=" } else { b" mr=ok time=" });
    lines.extend_from_slice(kind.name());
    lines.extend_from_slice(if offset < 0 { b" offset=-" } else { b" offset=" });
    push_decimal(lines, u64::from(offset.unsigned_abs()));
    lines.push(b'\n');
}

/// The decimal digits of 0 to 99, two each.
static DIGIT_PAIRS: [[u8; 2]; 100] = {
    let mut pairs = [[0; 2]; 100];
    let mut number = 0;
    while number < pairs.len() {
        pairs[number] = [b'0' + (number / 10) as u8, b'0' + (number % 10) as u8];
        number += 1;
    }
    pairs
};

/// Appends a number in decimal.
fn push_decimal(lines: &mut Vec<u8>, mut number: u64) {
    let mut digits = [0; 20];
    let mut start = digits.len();
    while number >= 10 {
        start -= 2;
        digits[start..start + 2].copy_from_slice(&DIGIT_PAIRS[(number % 100) as usize]);
        number /= 100;
    }
    if number > 0 || start == digits.len() {
        start -= 1;
        digits[start] = b'0' + number as u8;
    }
    lines.extend_from_slice(&digits[start..]);
}

#[cfg(test)]
mod tests {
    use super::*;
    use crate::frame::parse_frame;
    use crate::presentation::TimeKind;
    use crate::samples::{sound, tagged_0};

    #[test]
    fn decimals() {
        for number in [0, 9, 10, 99, 100, 101, 999, 1000, 1001, 4_294_967_296, u64::MAX] {
            let mut lines = Vec::new();
            push_decimal(&mut lines, number);
            assert_eq!(lines, number.to_string().as_bytes());
        }
    }

    #[test]
    fn each_line() {
        let (deck, camera) = (sound(1, &[]), tagged_0(1, &[]));
        let [deck, camera] = [&deck, &camera].map(|frame| parse_frame(frame).unwrap());
        let of_frame = |frame, flags, kind, offset| {
            let presentation = Presentation { kind, offset, time: 0 };
            Outcome::Frame(Reception { frame, flags, presentation })
        };
        let received = |flags, kind, offset| of_frame(deck, flags, kind, offset);
        let none = Flags::default();
        let all = Flags { sequence: true, block: true, format: true, mr: true };
        let all_but_block = Flags { block: false, ..all };
        let mut lines = Vec::new();
        push_start(&mut lines);
        push_outcome(&mut lines, 1, &Outcome::Admitted);
        push_refusal(&mut lines, 2, Refusal::RemovalRetired);
        push_refusal(&mut lines, 3, Refusal::RecordKind);
        push_outcome(&mut lines, 4, &received(none, TimeKind::None, 0));
        push_outcome(&mut lines, 5, &received(none, TimeKind::Cut, 0));
        push_outcome(&mut lines, 6, &received(all, TimeKind::Outside, -i32::MAX));
        push_outcome(&mut lines, 7, &received(none, TimeKind::Late, -1));
        push_outcome(&mut lines, 8, &received(none, TimeKind::Ahead, i32::MAX));
        push_outcome(&mut lines, 9, &received(none, TimeKind::Unclear, i32::MIN));
        push_outcome(&mut lines, 10, &received(none, TimeKind::Far, 1));
        push_outcome(&mut lines, 11, &of_frame(camera, none, TimeKind::None, 0));
        push_outcome(&mut lines, 12, &of_frame(camera, all_but_block, TimeKind::Late, -1));
        push_end(&mut lines, u64::MAX);
        assert_eq!(
            String::from_utf8(lines).unwrap(),
            "avtp listing 1\n\
            1 admitted\n\
            2 refused 44\n\
            3 refused 43\n\
            4 frame seq=ok dbc=ok fmt=ok mr=ok time=none offset=0\n\
            5 frame seq=ok dbc=ok fmt=ok mr=ok time=cut offset=0\n\
            6 frame seq=break dbc=break fmt=change mr=change time=outside offset=-2147483647\n\
            7 frame seq=ok dbc=ok fmt=ok mr=ok time=late offset=-1\n\
            8 frame seq=ok dbc=ok fmt=ok mr=ok time=ahead offset=2147483647\n\
            9 frame seq=ok dbc=ok fmt=ok mr=ok time=unclear offset=-2147483648\n\
            10 frame seq=ok dbc=ok fmt=ok mr=ok time=far offset=1\n\
            11 frame seq=ok dbc=none fmt=ok mr=ok time=none offset=0\n\
            12 frame seq=break dbc=none fmt=change mr=change time=late offset=-1\n\
            end records=18446744073709551615\n"
        );
    }
}
