//! The visit report over a whole capture (requests #104, #106 and #107).

use crate::outcome::{carry_out, Outcome};
use crate::reading::{read_records, Failure};
use crate::stream::{Counts, StreamRecord};
use crate::table::StreamTable;
use crate::visit::{KindCounts, Summary, Visit};
use std::collections::BTreeMap;
use std::io::{self, Read, Write};

/// A report being made.
struct Report {
    table: StreamTable,
    /// The visits of the admitted streams that had a frame, by id.
    visits: BTreeMap<u64, Visit>,
}

impl Report {
    /// Starts a report with no stream admitted.
    fn new() -> Report {
        Report { table: StreamTable::new(), visits: BTreeMap::new() }
    }

    /// Takes in one whole record.
    fn record(&mut self, record: &[u8]) {
        if let Ok(Outcome::Frame(reception)) = carry_out(&mut self.table, record) {
            let visit = self.visits.entry(reception.frame.stream_id).or_default();
            visit.add(&reception.presentation);
        }
    }

    /// Writes a line for each admitted stream, in table order.
    fn write_lines(&self, out: &mut impl Write) -> io::Result<()> {
        for record in self.table.admitted() {
            let visit = self.visits.get(&record.id).copied().unwrap_or_default();
            write_line(out, record, &visit)?;
        }
        out.flush()
    }
}

/// Writes a stream's line.
fn write_line(out: &mut impl Write, record: &StreamRecord, visit: &Visit) -> io::Result<()> {
    let Counts { frames, sequence_breaks, block_breaks, format_changes, mr_changes } =
        record.counts;
    let KindCounts { none, cut, outside, late, ahead, unclear, far } = visit.kinds;
    write!(out, "{} {frames} ", record.id)?;
    write!(out, "{sequence_breaks} {block_breaks} {format_changes} {mr_changes} ")?;
    write!(out, "{none} {cut} {outside} {late} {ahead} {unclear} {far} ")?;
    match visit.summary {
        Some(Summary { smallest, largest, sum, count }) => {
            write!(out, "{smallest} {largest} {sum} {sum}/{count} ")?;
        }
        None => write!(out, "none none none none ")?,
    }
    writeln!(out, "{}", visit.not_summed)
}

/// Reports one capture, as far as it goes where it is cut. After a read error
/// nothing is written.
pub fn report_capture(
    input: &mut impl Read,
    out: &mut impl Write,
    buffer: &mut [u8],
) -> Result<(), Failure> {
    let mut report = Report::new();
    read_records(input, buffer, |record| {
        report.record(record);
        Ok(())
    })?;
    report.write_lines(out).map_err(Failure::Write)
}

#[cfg(test)]
mod tests {
    use super::*;
    use crate::capture::LONGEST_RECORD;
    use crate::samples::{
        admit_record, frame_record, limited_record, record, remove_record, sound, stamped,
        tagged_0, with, Slow,
    };

    /// Reports what `input` gives: the lines, and the answer.
    fn report(input: &mut impl Read) -> (String, Result<(), Failure>) {
        let mut out = Vec::new();
        let answer = report_capture(input, &mut out, &mut vec![0; LONGEST_RECORD]);
        (String::from_utf8(out).unwrap(), answer)
    }

    /// The report of a capture of these records.
    fn reported(records: &[Vec<u8>]) -> String {
        let (lines, answer) = report(&mut &records.concat()[..]);
        answer.unwrap();
        lines
    }

    /// A frame that arrives far from either end of the times, with an offset.
    fn offset_record(id: u64, offset: i32) -> Vec<u8> {
        let arrival: u64 = 1 << 40;
        frame_record(arrival, &stamped(sound(id, &[]), offset as u32))
    }

    /// A line for stream 1 with no frame.
    const NO_FRAME: &str = "1 0 0 0 0 0 0 0 0 0 0 0 0 none none none none 0\n";

    /// A line for stream 1 with one frame, ahead by 2000.
    const ONE_FRAME: &str = "1 1 0 0 0 0 0 0 0 0 1 0 0 2000 2000 2000 2000/1 0\n";

    #[test]
    fn example_of_document_01() {
        let capture = [
            admit_record(1),
            frame_record(1000, &stamped(sound(1, &[]), 3000)),
            frame_record(1000, &stamped(sound(2, &[]), 3000)),
            remove_record(1),
        ];
        assert_eq!(reported(&capture), ONE_FRAME);
        assert_eq!(reported(&capture[..3]), ONE_FRAME);
        assert_eq!(reported(&capture[..1]), NO_FRAME);
        assert_eq!(reported(&[]), "");
    }

    #[test]
    fn each_column() {
        let first = sound(1, &[]);
        let mr = with(with(first.clone(), 20, 1), 19, 0x89);
        let fmt = with(with(mr.clone(), 20, 2), 46, 0x81);
        let dbc = with(with(fmt.clone(), 20, 3), 45, 9);
        let sph = with(dbc.clone(), 44, 4);
        let capture = [
            limited_record(1, 5),
            frame_record(1000, &stamped(first.clone(), 1005)),
            frame_record(1000, &stamped(mr, 1005)),
            frame_record(1000, &stamped(fmt, 1005)),
            frame_record(1000, &stamped(dbc.clone(), 980)),
            // The same sequence number again.
            frame_record(1000, &stamped(dbc, 1005)),
            // And SPH 1, with no block for the stamp.
            frame_record(1000, &sph),
            // As at first, so that all four differ; its time is below 0.
            frame_record(1000, &stamped(first.clone(), -1_i32 as u32)),
            // Half a wrap away, with the same sequence number.
            frame_record(1000, &stamped(first.clone(), 2_147_484_648)),
            // Above the limit, with the same sequence number.
            frame_record(1000, &stamped(first.clone(), 1006)),
            frame_record(1000, &stamped(first, 2_147_484_647)),
        ];
        assert_eq!(reported(&capture), "1 10 6 2 3 2 1 0 1 1 4 1 2 -20 5 0 0/5 0\n");
    }

    #[test]
    fn tag_0_frames_are_counted() {
        let camera = |sequence| with(tagged_0(1, &[0xFF; 9]), 20, sequence);
        let deck = |sequence, dbc| with(with(sound(1, &[0; 4]), 20, sequence), 45, dbc);
        let capture = [
            limited_record(1, 5),
            frame_record(1000, &stamped(camera(0), 1005)),
            frame_record(1000, &stamped(camera(1), 1006)),
            frame_record(1000, &with(camera(2), 19, 0x80)),
            frame_record(1000, &stamped(deck(3, 7), 997)),
            frame_record(1000, &stamped(camera(4), 2_147_484_648)),
            frame_record(1000, &stamped(deck(5, 9), 1000)),
        ];
        assert_eq!(reported(&capture), "1 6 0 1 3 0 1 0 0 1 2 1 1 -3 5 2 2/3 0\n");
    }

    #[test]
    fn unclear_frames_have_no_part_in_the_sums() {
        let of_offsets = |offsets: &[i32]| {
            let frames = offsets.iter().map(|&offset| offset_record(1, offset));
            reported(&[vec![admit_record(1)], frames.collect()].concat())
        };
        // The sequence number is the same in all frames.
        let (half, least, greatest) = (i32::MIN, -2_147_483_647, 2_147_483_647);
        assert_eq!(of_offsets(&[half; 3]), "1 3 2 0 0 0 0 0 0 0 0 3 0 none none none none 0\n");
        assert_eq!(
            of_offsets(&[half, least, half]),
            "1 3 2 0 0 0 0 0 0 1 0 2 0 -2147483647 -2147483647 -2147483647 -2147483647/1 0\n"
        );
        assert_eq!(
            of_offsets(&[greatest, half, least]),
            "1 3 2 0 0 0 0 0 0 1 1 1 0 -2147483647 2147483647 0 0/2 0\n"
        );
    }

    #[test]
    fn far_frames_have_no_part_in_the_sums() {
        let of_offsets = |offsets: &[i32]| {
            let frames = offsets.iter().map(|&offset| offset_record(1, offset));
            reported(&[vec![limited_record(1, 9)], frames.collect()].concat())
        };
        // The sequence number is the same in all frames.
        assert_eq!(of_offsets(&[10; 3]), "1 3 2 0 0 0 0 0 0 0 0 0 3 none none none none 0\n");
        assert_eq!(of_offsets(&[10, 9, 10]), "1 3 2 0 0 0 0 0 0 0 1 0 2 9 9 9 9/1 0\n");
        let greatest = i32::MAX;
        assert_eq!(
            of_offsets(&[greatest, -3, greatest, 5]),
            "1 4 3 0 0 0 0 0 0 1 1 0 2 -3 5 2 2/2 0\n"
        );
    }

    #[test]
    fn in_table_order() {
        let none = "0 0 0 0 0 0 0 0 0 0 0 0 none none none none 0";
        let one = "1 0 0 0 0 0 0 0 0 1 0 0 4 4 4 4/1 0";
        let greatest = u64::MAX;
        let capture = [
            admit_record(7),
            admit_record(greatest),
            admit_record(3),
            offset_record(3, 4),
            remove_record(7),
            // Not at the place of 7, which stays admitted.
            admit_record(0),
            admit_record(7),
            offset_record(7, 4),
        ];
        let lines = format!("7 {one}\n{greatest} {none}\n3 {one}\n0 {none}\n");
        assert_eq!(reported(&capture), lines);
    }

    #[test]
    fn a_full_table() {
        let mut capture: Vec<Vec<u8>> = (0..65).rev().map(admit_record).collect();
        capture.extend([remove_record(9), admit_record(0), admit_record(9)]);
        let lines = reported(&capture);
        let ids: Vec<&str> = lines.lines().map(|line| line.split(' ').next().unwrap()).collect();
        let expected: Vec<String> = (1..65).rev().map(|id: u64| id.to_string()).collect();
        assert_eq!(ids, expected);
    }

    #[test]
    fn removals_keep_the_numbers() {
        let mut capture = vec![
            limited_record(1, 9),
            offset_record(1, i32::MIN),
            offset_record(1, -5),
            offset_record(1, 10),
            remove_record(1),
        ];
        // The sequence number is the same in all frames.
        let before = "1 3 2 0 0 0 0 0 0 1 0 1 1 -5 -5 -5 -5/1 0\n";
        assert_eq!(reported(&capture), before);
        capture.push(admit_record(1));
        assert_eq!(reported(&capture), before);
        capture.extend([offset_record(1, 7), remove_record(1), offset_record(1, 10)]);
        assert_eq!(reported(&capture), "1 5 4 0 0 0 0 0 0 1 1 1 2 -5 7 2 2/2 0\n");
    }

    #[test]
    fn refused_records_change_nothing() {
        let capture = [
            remove_record(1),
            admit_record(1),
            offset_record(1, 2000),
            admit_record(1),
            limited_record(1, 0),
            limited_record(2, u32::MAX),
            remove_record(2),
            remove_record(1),
            record(3, &[0; 7]),
            record(3, &[&1_u64.to_be_bytes()[..], &[0; 4]].concat()),
            record(259, &1_u64.to_be_bytes()),
            record(4, &1_u64.to_be_bytes()),
            record(5, &2_u64.to_be_bytes()),
            frame_record(0, &sound(1, &[])[..41]),
            frame_record(0, &with(sound(1, &[]), 18, 1)),
            frame_record(0, &with(sound(1, &[]), 44, 0x18)),
            vec![0, 0],
        ];
        assert_eq!(reported(&capture), ONE_FRAME);
    }

    #[test]
    fn cut_captures_and_pieces() {
        let whole = [admit_record(1), offset_record(1, 2000)].concat();
        let capture = [whole.clone(), remove_record(1)].concat();
        for length in whole.len()..=capture.len() {
            for piece in [1, 7, length] {
                let (lines, answer) = report(&mut Slow::new(&capture[..length], piece));
                assert!(answer.is_ok());
                assert_eq!(lines, ONE_FRAME);
            }
        }
    }

    #[test]
    fn nothing_after_a_read_error() {
        let capture = [admit_record(1), offset_record(1, 2000)].concat();
        for length in [0, 5, 12, capture.len()] {
            let mut slow = Slow { fails: true, ..Slow::new(&capture[..length], 5) };
            let (lines, answer) = report(&mut slow);
            assert!(matches!(answer, Err(Failure::Read(_))));
            assert_eq!(lines, "");
        }
    }
}
