//! Says which cases of a rule the records of captures are.
//!
//! `second_cases FILE..` goes through each capture named as `second_list` does. For
//! each record it writes a line for each case that the record is, such as
//! `sph fn=2 start last` (`starts.rs` says which there are), `qpc=3 alone` (`qpc.rs`
//! does), `sph=0 half a wrap, L + d below 0` (`half_wrap.rs` does), `limit=0 admitted`
//! (`limits.rs` does), `tag=0 padding` (`tags.rs` does) or `removal again` (`removals.rs`
//! does); the last two say some of whole captures too. Neither a listing nor a report shows
//! any of this, and the comparisons have to know that each came up.
//!
//! This file is a root beside `list.rs`, over rooms that stand there too; from the
//! bottom: wire, refusal, cip, frame, presentation, stream, table, capture, outcome,
//! reading, starts, qpc, half_wrap, limits, tag_rules, tags, removals.
//!
//! Build: `build.sh OUTDIR`.

mod capture;
mod cip;
mod frame;
mod half_wrap;
mod limits;
mod outcome;
mod presentation;
mod qpc;
mod reading;
mod refusal;
mod removals;
#[cfg(test)]
mod samples;
mod starts;
mod stream;
mod table;
mod tag_rules;
mod tags;
mod wire;

use half_wrap::half_wrap_cases;
use limits::{limit_cases, Limits};
use outcome::carry_out;
use qpc::qpc_cases;
use reading::{read_records, Failure, BUFFER};
use removals::{removal_cases, Removals};
use starts::start_cases;
use std::fs;
use std::io::{self, BufWriter, Write};
use std::process::ExitCode;
use table::StreamTable;
use tags::{tag_cases, Tags};

/// Writes a line for each case.
fn write_lines(out: &mut impl Write, cases: &[String]) -> io::Result<()> {
    cases.iter().try_for_each(|case| writeln!(out, "{case}"))
}

/// Writes the lines of one capture.
fn write_cases(capture: &[u8], out: &mut impl Write, buffer: &mut [u8]) -> io::Result<()> {
    let mut table = StreamTable::new();
    let mut heedless = StreamTable::new();
    let mut limits = Limits::default();
    let mut tags = Tags::new();
    let mut removals = Removals::default();
    // Bytes of whole records.
    let mut whole = 0;
    let done = read_records(&mut &*capture, buffer, |record| {
        whole += 2 + record.len();
        let outcome = carry_out(&mut table, record);
        let cases = [
            start_cases(&outcome),
            qpc_cases(&mut heedless, record, &outcome),
            half_wrap_cases(record, &outcome),
            limit_cases(&mut limits, record, &outcome),
            tag_cases(&mut tags, record, &outcome),
            removal_cases(&mut removals, record, &outcome),
        ];
        write_lines(out, &cases.concat())
    });
    match done {
        Ok(_) => {
            let cases = [tags.end_cases(), removals.end_cases(&capture[whole..])];
            write_lines(out, &cases.concat())
        }
        Err(Failure::Read(error) | Failure::Write(error)) => Err(error),
    }
}

/// Writes the lines of each capture named.
fn write_all_cases() -> io::Result<()> {
    let mut buffer = vec![0; BUFFER];
    let mut out = BufWriter::new(io::stdout().lock());
    for name in std::env::args_os().skip(1) {
        write_cases(&fs::read(name)?, &mut out, &mut buffer)?;
    }
    out.flush()
}

fn main() -> ExitCode {
    match write_all_cases() {
        Ok(()) => ExitCode::SUCCESS,
        Err(error) => {
            eprintln!("second_cases: {error}");
            ExitCode::FAILURE
        }
    }
}

#[cfg(test)]
mod tests {
    use super::*;
    use crate::samples::{
        admit_record, frame_record, limited_record, of_length, record, remove_record, sound,
        stamped, tagged_0, with,
    };

    /// The lines of a capture of these records.
    fn lines(records: &[Vec<u8>]) -> Vec<String> {
        let mut out = Vec::new();
        write_cases(&records.concat(), &mut out, &mut vec![0; BUFFER]).unwrap();
        String::from_utf8(out).unwrap().lines().map(String::from).collect()
    }

    /// Those that are about neither limits nor tags nor removals, on one line.
    fn said(records: &[Vec<u8>]) -> String {
        let mut lines = lines(records);
        let elsewhere = ["limit", "tag", "removal"];
        lines.retain(|line| !elsewhere.iter().any(|what| line.starts_with(what)));
        lines.join(", ")
    }

    /// Those that are about `what`.
    fn said_about(records: &[Vec<u8>], what: &str) -> Vec<String> {
        let mut lines = lines(records);
        lines.retain(|line| line.starts_with(what));
        lines
    }

    #[test]
    fn only_frames_that_are_listed_with_sph_1() {
        let frame = |id| with(with(sound(id, &[0; 8]), 44, 0x44), 45, 7);
        let capture = [
            frame_record(0, &frame(1)),
            admit_record(1),
            frame_record(0, &frame(1)),
            frame_record(0, &frame(2)),
            frame_record(0, &with(frame(1), 44, 0x40)),
            frame_record(0, &with(frame(1), 43, 3)),
            frame_record(0, &with(frame(1), 44, 0xC4)),
        ];
        assert_eq!(said(&capture), "sph fn=1 start last, sph fn=3 start last");
    }

    #[test]
    fn what_is_wrong_beside_a_qpc() {
        let with_qpc = |qpc: u8| with(sound(1, &[0; 8]), 44, qpc << 3);
        for (frame, case) in [
            (with_qpc(1), "qpc=1 alone"),
            (with_qpc(2), "qpc=2 alone"),
            (with_qpc(4), "qpc=4 alone"),
            (with_qpc(7), "qpc=7 alone"),
            ([with_qpc(3), vec![0; 1500]].concat(), "qpc with 2"),
            (with(with_qpc(3), 12, 0), "qpc with 3"),
            (with(with_qpc(3), 40, 0x80), "qpc with 12"),
            (of_length(with_qpc(3), 7), "qpc with 13"),
            (with(with_qpc(3), 43, 3), "qpc with 14"),
            (with(with_qpc(3), 29, 2), "qpc with 15"),
            // The bits around QPC, and a frame that ends before it.
            (with(with_qpc(0), 44, 0xC3), ""),
            (of_length(with_qpc(3), 2)[..44].to_vec(), ""),
            // Tag 0 has none, whatever else is wrong.
            (with(with_qpc(3), 40, 0), ""),
            (with(with(with_qpc(3), 40, 0), 12, 0), ""),
        ] {
            assert_eq!(said(&[admit_record(1), frame_record(0, &frame)]), case);
        }
        // No frame, though its bytes would be one with a QPC.
        let no_frame = record(2, &frame_record(0, &with_qpc(3))[4..]);
        assert_eq!(said(&[no_frame]), "");
    }

    #[test]
    fn half_a_wrap_by_either_stamp() {
        let stamp: u32 = 1 << 31;
        let by_timestamp = stamped(sound(1, &[]), stamp);
        let by_payload = with(sound(1, &stamp.to_be_bytes()), 44, 4);
        let lines = |arrival, frame: &[u8]| said(&[admit_record(1), frame_record(arrival, frame)]);
        assert_eq!(lines(0, &by_timestamp), "sph=0 half a wrap, L + d below 0");
        assert_eq!(
            lines(1 << 32, &by_payload),
            "sph fn=0 start first, sph=1 half a wrap, L + d above 0"
        );
        assert_eq!(lines(1, &by_timestamp), "sph=0 d=2147483647, L + d above 0");
        assert_eq!(lines(2, &by_timestamp), "");
        // No stamp is read, and then a frame that is refused.
        assert_eq!(lines(0, &with(by_timestamp.clone(), 19, 0x80)), "");
        assert_eq!(lines(0, &with(by_timestamp, 29, 2)), "");
    }

    #[test]
    fn limits_of_every_record() {
        let capture = [
            limited_record(1, 1),
            record(4, &[]),
            frame_record(0, &stamped(sound(1, &[]), 1)),
            frame_record(0, &stamped(sound(1, &[]), 2)),
        ];
        let expected = [
            "limit=1 admitted",
            "limit allowed in either order",
            "limit record of kind 4, length any",
            "limit sph=0 d equal, L + d inside",
            "limit=1 d=1, kind 5",
            "limit told from 0, kind 5",
            "limit sph=0 d one above, L + d inside",
            "limit=1 d=2, kind 5",
            "limit told from the largest",
            "limit told from its bytes in the other order",
            "limit told from the largest after an accepted frame",
        ];
        assert_eq!(said_about(&capture, "limit"), expected);
    }

    #[test]
    fn tags_of_every_record_and_of_the_end() {
        let capture = [
            frame_record(0, &tagged_0(1, &[])),
            admit_record(1),
            frame_record(0, &sound(1, &[])),
            frame_record(0, &with(sound(1, &[]), 20, 1)),
        ];
        let expected = [
            "tag told from 12 for tag 0",
            "tag told from 13 for tag 0",
            "tag told from 13 for tag 0 without data",
            "tag=0 refused 15, for tag 1 a 13",
            "tag told from format flag of tag 1 first",
            "tag=1 first",
        ];
        assert_eq!(said_about(&capture, "tag"), expected);
        let alone =
            ["tag told from format flag of tag 1 first", "tag=1 first", "tag=1 in all frames"];
        assert_eq!(said_about(&capture[1..], "tag"), alone);
    }

    #[test]
    fn removals_of_every_record_and_of_the_end() {
        let capture = [
            remove_record(1),
            admit_record(1),
            frame_record(0, &sound(1, &[])),
            remove_record(1),
            admit_record(1),
            remove_record(1)[..6].to_vec(),
        ];
        let expected = [
            "removal before any admission",
            "removal of a stream not admitted",
            "removal, then the stream admitted",
            "removal of a stream admitted",
            "removal, then the stream refused 21",
            "removal after all frames",
            "removal cut within its id",
        ];
        assert_eq!(said_about(&capture, "removal"), expected);
    }

    #[test]
    fn where_a_qpc_would_show() {
        let frame = |sequence, dbc| with(with(sound(1, &[0; 8]), 20, sequence), 45, dbc);
        let then = |refused: &[u8], after: &[Vec<u8>]| {
            let before = [admit_record(1), frame_record(0, &frame(1, 0)), frame_record(0, refused)];
            said(&[&before, after].concat())
        };
        let refused = with(frame(2, 2), 44, 0x18);
        let shows = "qpc=3 alone, qpc shows in seq, qpc shows in dbc";
        // The sender goes on, or sends the frame anew.
        let next = [frame_record(0, &frame(3, 4))];
        let anew = [frame_record(0, &frame(2, 2))];
        assert_eq!(then(&refused, &next), shows);
        assert_eq!(then(&refused, &anew), shows);
        let fn_1 = with(refused.clone(), 44, 0x58);
        assert_eq!(then(&fn_1, &anew), format!("{shows}, qpc shows in fmt"));
        let mr = with(refused.clone(), 19, 0x89);
        assert_eq!(then(&mr, &anew), format!("{shows}, qpc shows in mr"));
        // Both flags are raised anyway, or it would be refused with QPC 0 too.
        assert_eq!(then(&refused, &[frame_record(0, &frame(9, 9))]), "qpc=3 alone");
        assert_eq!(then(&with(refused, 43, 3), &next), "qpc with 14");
    }
}
