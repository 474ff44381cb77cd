//! The listing of a capture.

use crate::lines::{push_end, push_outcome, push_refusal, push_start};
use crate::outcome::carry_out;
use crate::reading::{read_records, End, Failure};
use crate::refusal::Refusal;
use crate::table::StreamTable;
use std::io::{self, Read, Write};

/// A listing being made: its lines so far, and the table and the number of
/// records that they come from.
struct Listing {
    table: StreamTable,
    records: u64,
    /// Lines not yet written out.
    lines: Vec<u8>,
}

/// Lines are written out once there are this many bytes of them.
const LINES_AT_ONCE: usize = 64 * 1024;

impl Listing {
    /// Starts a listing with its first line.
    fn new() -> Listing {
        let mut lines = Vec::with_capacity(LINES_AT_ONCE + 1024);
        push_start(&mut lines);
        Listing { table: StreamTable::new(), records: 0, lines }
    }

    /// Lists one whole record.
    fn record(&mut self, record: &[u8]) {
        self.records += 1;
        match carry_out(&mut self.table, record) {
            Ok(outcome) => push_outcome(&mut self.lines, self.records, &outcome),
            Err(refusal) => push_refusal(&mut self.lines, self.records, refusal),
        }
    }

    /// Ends the listing with its last line, after the line of a cut record.
    fn end(&mut self, end: End) {
        if end == End::InsideRecord {
            self.records += 1;
            push_refusal(&mut self.lines, self.records, Refusal::CaptureEnds);
        }
        push_end(&mut self.lines, self.records);
    }

    /// Writes out the lines so far if there are at least `at_least` bytes.
    fn write_out(&mut self, out: &mut impl Write, at_least: usize) -> io::Result<()> {
        if self.lines.len() >= at_least {
            out.write_all(&self.lines)?;
            self.lines.clear();
        }
        Ok(())
    }
}

/// Lists one capture. After a read error, the records read before it are listed
/// and the last line is missing.
pub fn list_capture(
    input: &mut impl Read,
    out: &mut impl Write,
    buffer: &mut [u8],
) -> Result<(), Failure> {
    let mut listing = Listing::new();
    let done = read_records(input, buffer, |record| {
        listing.record(record);
        listing.write_out(out, LINES_AT_ONCE)
    })
    .map(|end| listing.end(end));
    if !matches!(done, Err(Failure::Write(_))) {
        listing.write_out(out, 0).map_err(Failure::Write)?;
    }
    done
}

#[cfg(test)]
mod tests {
    use super::*;
    use crate::capture::LONGEST_RECORD;
    use crate::reading::BUFFER;
    use crate::samples::{
        admit_record, frame_record, limited_record, record, remove_record, sound, stamped,
        tagged_0, with, Slow,
    };

    /// Lists what `input` gives: the lines, and the answer.
    fn list(input: &mut impl Read, buffer: usize) -> (String, Result<(), Failure>) {
        let mut out = Vec::new();
        let answer = list_capture(input, &mut out, &mut vec![0; buffer]);
        (String::from_utf8(out).unwrap(), answer)
    }

    /// The listing of a capture that is there at once.
    fn listed(capture: &[u8]) -> String {
        let (lines, answer) = list(&mut &*capture, BUFFER);
        answer.unwrap();
        lines
    }

    /// The listing of a capture that comes in pieces, with the least buffer.
    fn listed_in_pieces(capture: &[u8], piece: usize) -> String {
        let (lines, answer) = list(&mut Slow::new(capture, piece), LONGEST_RECORD);
        answer.unwrap();
        lines
    }

    #[test]
    fn whole_listing() {
        let capture = [
            admit_record(1),
            frame_record(1000, &stamped(sound(1, &[]), 3000)),
            frame_record(1000, &stamped(sound(2, &[]), 3000)),
            remove_record(1),
        ]
        .concat();
        let expected = "avtp listing 1\n\
            1 admitted\n\
            2 frame seq=ok dbc=ok fmt=ok mr=ok time=ahead offset=2000\n\
            3 refused 15\n\
            4 refused 44\n\
            end records=4\n";
        assert_eq!(listed(&capture), expected);
        for piece in 1..=capture.len() {
            assert_eq!(listed_in_pieces(&capture, piece), expected);
        }
    }

    #[test]
    fn raised_flags_are_listed() {
        let first = with(sound(1, &[]), 19, 0x89);
        let second = with(with(with(stamped(sound(1, &[]), 1), 20, 9), 45, 9), 43, 9);
        let capture = [
            admit_record(1),
            frame_record(0, &first),
            frame_record(2, &second),
            frame_record(0, &stamped(second.clone(), 0x8000_0000)),
        ]
        .concat();
        assert_eq!(
            listed(&capture),
            "avtp listing 1\n\
            1 admitted\n\
            2 frame seq=ok dbc=ok fmt=ok mr=ok time=ahead offset=0\n\
            3 frame seq=break dbc=break fmt=change mr=change time=late offset=-1\n\
            4 frame seq=break dbc=ok fmt=ok mr=ok time=unclear offset=-2147483648\n\
            end records=4\n"
        );
    }

    #[test]
    fn limits_are_listed() {
        let ahead_by = |id, by| frame_record(1 << 40, &stamped(sound(id, &[]), by));
        let capture = [
            limited_record(1, 2000),
            limited_record(2, 1 << 31),
            admit_record(2),
            ahead_by(1, 2000),
            ahead_by(1, 2001),
            ahead_by(2, 2001),
            limited_record(1, 9000),
            record(5, &1_u64.to_be_bytes()),
            record(4, &[0; 12]),
        ]
        .concat();
        assert_eq!(
            listed(&capture),
            "avtp listing 1\n\
            1 admitted\n\
            2 refused 24\n\
            3 admitted\n\
            4 frame seq=ok dbc=ok fmt=ok mr=ok time=ahead offset=2000\n\
            5 frame seq=break dbc=ok fmt=ok mr=ok time=far offset=2001\n\
            6 frame seq=ok dbc=ok fmt=ok mr=ok time=ahead offset=2001\n\
            7 refused 21\n\
            8 refused 42\n\
            9 refused 43\n\
            end records=9\n"
        );
    }

    #[test]
    fn tag_0_is_listed() {
        let deck =
            |sequence, dbc| frame_record(0, &with(with(sound(1, &[0; 4]), 20, sequence), 45, dbc));
        let camera = |sequence| frame_record(0, &with(tagged_0(1, &[0xFF; 9]), 20, sequence));
        let capture = [
            admit_record(1),
            camera(3),
            deck(4, 200),
            camera(5),
            camera(7),
            deck(8, 201),
            camera(9),
            deck(10, 203),
            frame_record(0, &tagged_0(2, &[])),
            frame_record(0, &with(tagged_0(1, &[]), 40, 0x80)),
        ]
        .concat();
        assert_eq!(
            listed(&capture),
            "avtp listing 1\n\
            1 admitted\n\
            2 frame seq=ok dbc=none fmt=ok mr=ok time=ahead offset=0\n\
            3 frame seq=ok dbc=ok fmt=change mr=ok time=ahead offset=0\n\
            4 frame seq=ok dbc=none fmt=change mr=ok time=ahead offset=0\n\
            5 frame seq=break dbc=none fmt=ok mr=ok time=ahead offset=0\n\
            6 frame seq=ok dbc=ok fmt=change mr=ok time=ahead offset=0\n\
            7 frame seq=ok dbc=none fmt=change mr=ok time=ahead offset=0\n\
            8 frame seq=ok dbc=break fmt=change mr=ok time=ahead offset=0\n\
            9 refused 15\n\
            10 refused 12\n\
            end records=10\n"
        );
    }

    #[test]
    fn removals_are_not_obeyed() {
        let frame = |sequence| frame_record(0, &with(sound(1, &[]), 20, sequence));
        let capture = [
            remove_record(1),
            admit_record(1),
            remove_record(1),
            frame(4),
            remove_record(1),
            frame(5),
            remove_record(1),
            limited_record(1, 0),
            frame(7),
            record(3, &[0; 7]),
            record(3, &[&1_u64.to_be_bytes()[..], &[0; 4]].concat()),
            record(259, &1_u64.to_be_bytes()),
            remove_record(2),
            frame(8),
            remove_record(1),
        ]
        .concat();
        let lines = "avtp listing 1\n\
            1 refused 44\n\
            2 admitted\n\
            3 refused 44\n\
            4 frame seq=ok dbc=ok fmt=ok mr=ok time=ahead offset=0\n\
            5 refused 44\n\
            6 frame seq=ok dbc=ok fmt=ok mr=ok time=ahead offset=0\n\
            7 refused 44\n\
            8 refused 21\n\
            9 frame seq=break dbc=ok fmt=ok mr=ok time=ahead offset=0\n\
            10 refused 42\n\
            11 refused 42\n\
            12 refused 43\n\
            13 refused 44\n\
            14 frame seq=ok dbc=ok fmt=ok mr=ok time=ahead offset=0\n";
        assert_eq!(listed(&capture), format!("{lines}15 refused 44\nend records=15\n"));
        for missing in 1..12 {
            let cut = &capture[..capture.len() - missing];
            assert_eq!(listed(cut), format!("{lines}15 refused 41\nend records=15\n"));
        }
    }

    #[test]
    fn removals_free_no_place() {
        let admissions: Vec<Vec<u8>> = (0..64).map(admit_record).collect();
        let after = [remove_record(63), admit_record(64), admit_record(63), limited_record(64, 0)];
        let lines = listed(&[&admissions[..], &after].concat().concat());
        let last = "64 admitted\n65 refused 44\n66 refused 22\n67 refused 21\n68 refused 22\n\
            end records=68\n";
        assert!(lines.ends_with(last));
    }

    #[test]
    fn empty_capture() {
        assert_eq!(listed(&[]), "avtp listing 1\nend records=0\n");
    }

    #[test]
    fn skipped_records_and_cut_end() {
        let capture = [
            vec![0, 0],
            vec![1, 0, 7],
            record(9, &[0; 5]),
            record(2, &[0; 7]),
            frame_record(0, &[]),
            admit_record(7),
        ]
        .concat();
        let lines = "avtp listing 1\n\
            1 refused 42\n2 refused 42\n3 refused 43\n4 refused 42\n5 refused 1\n";
        assert_eq!(listed(&capture), format!("{lines}6 admitted\nend records=6\n"));
        for missing in 1..12 {
            let cut = &capture[..capture.len() - missing];
            assert_eq!(listed(cut), format!("{lines}6 refused 41\nend records=6\n"));
        }
    }

    #[test]
    fn no_last_line_after_a_read_error() {
        let capture = [admit_record(1), admit_record(1)].concat();
        for (length, lines) in [
            (24, "avtp listing 1\n1 admitted\n2 refused 21\n"),
            (23, "avtp listing 1\n1 admitted\n"),
            (0, "avtp listing 1\n"),
        ] {
            let mut slow = Slow { fails: true, ..Slow::new(&capture[..length], 5) };
            let (listed, answer) = list(&mut slow, LONGEST_RECORD);
            assert!(matches!(answer, Err(Failure::Read(_))));
            assert_eq!(listed, lines);
        }
    }

    #[test]
    fn longest_records_pass_the_buffer() {
        let mut capture = admit_record(1);
        let mut expected = String::from("avtp listing 1\n1 admitted\n");
        for number in 0..40 {
            let (record, line) = match number % 3 {
                0 => (record(4, &[0; 65533]), "refused 43"),
                1 => (frame_record(0, &[0; 65525]), "refused 2"),
                _ => (remove_record(3), "refused 44"),
            };
            capture.extend(record);
            expected += &format!("{} {line}\n", number + 2);
        }
        expected += "end records=41\n";
        assert_eq!(listed(&capture), expected);
        for piece in [1000, 65537, 70000] {
            assert_eq!(listed_in_pieces(&capture, piece), expected);
        }
    }
}
