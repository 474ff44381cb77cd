//! Gives back a stream's whole source packets (request #110).
//!
//! `second_packets ID [FILE]` goes through the capture named; `-`, or no name, stands for
//! standard input. It writes the whole packets of the stream ID to standard output, one
//! after the other, and then the line `packets=P dropped=D passed_over=Q` to standard
//! error. ID is decimal, or hexadecimal after `0x`. Records without a frame are passed by,
//! and whether the stream is admitted is not asked. A cut capture is gone through as far as
//! it goes; after a read error there is a message in place of the line.
//!
//! `second_packets --answers` reads the eight bytes of the stream's id, in wire order, and
//! then a capture from standard input. For each record with a frame, which is number R of
//! all records, it writes to standard output
//!
//! - `R refused N` where the frame is refused, or else
//! - `R packet next=B stamp=S bytes=HEX` for each whole packet: the block of the frame to go
//!   on from, the stamp and the bytes,
//! - and then `R frame packets=K dropped=D passed=P unfinished=U`: how many packets it
//!   made whole, both counts so far, and the bytes of the packet being put together,
//!
//! and at last `end dropped=D passed=P`.
//!
//! This file is a root beside `list.rs`, over rooms that stand there too; from the bottom:
//! wire, refusal, cip, frame, presentation, capture, input, reading, assembly, stream_input,
//! packet_answers.
//!
//! Build: `build.sh OUTDIR`.

mod assembly;
mod capture;
#[allow(dead_code)] // nothing is asked about a stream's format
mod cip;
mod frame;
mod input;
mod packet_answers;
#[allow(dead_code)] // no time is reckoned
mod presentation;
mod reading;
mod refusal;
#[allow(dead_code)] // no frame is stamped
#[cfg(test)]
mod samples;
mod stream_input;
mod wire;

use assembly::Assembly;
use capture::{parse_record, CaptureRecord};
use input::{called, open, STANDARD_INPUT};
use packet_answers::answer_input;
use reading::{read_records, Failure, BUFFER};
use std::ffi::{OsStr, OsString};
use std::io::{self, BufWriter, Read, Write};
use std::process::ExitCode;

/// What is asked for an answer to each frame.
const ANSWERS: &str = "--answers";

const USAGE: &str = "usage: second_packets ID [FILE]
       second_packets --answers";

/// The stream id that a word stands for: a decimal number of 64 bits, or a hexadecimal one
/// after `0x`.
fn parse_id(word: &OsStr) -> Option<u64> {
    let word = word.to_str()?;
    let (digits, radix) = match word.strip_prefix("0x") {
        Some(digits) => (digits, 16),
        None => (word, 10),
    };
    let digits = Some(digits).filter(|digits| digits.chars().all(|digit| digit.is_digit(radix)))?;
    u64::from_str_radix(digits, radix).ok()
}

/// Writes the whole packets of a stream, and answers the line about them.
fn write_packets(
    id: u64,
    input: &mut impl Read,
    out: &mut impl Write,
    buffer: &mut [u8],
) -> Result<String, Failure> {
    let mut assembly = Assembly::new(id);
    let mut packets: u64 = 0;
    read_records(input, buffer, |record| {
        let Ok(CaptureRecord::Frame { frame, .. }) = parse_record(record) else {
            return Ok(());
        };
        let whole = assembly.take_in(frame).unwrap_or_default();
        packets += whole.len() as u64;
        whole.iter().try_for_each(|packet| out.write_all(&packet.bytes))
    })?;
    out.flush().map_err(Failure::Write)?;
    let Assembly { dropped, passed_over, .. } = assembly;
    Ok(format!("packets={packets} dropped={dropped} passed_over={passed_over}"))
}

/// Writes the whole packets of a stream of the capture that `name` stands for, and the line
/// about them.
fn write_named(id: u64, name: &OsStr) -> Result<(), Failure> {
    let mut input = open(name).map_err(Failure::Read)?;
    let mut out = BufWriter::new(io::stdout().lock());
    let line = write_packets(id, &mut input, &mut out, &mut vec![0; BUFFER])?;
    eprintln!("{line}");
    Ok(())
}

/// Answers each frame on standard input.
fn write_answers() -> Result<(), Failure> {
    let mut out = BufWriter::new(io::stdout().lock());
    answer_input(&mut io::stdin().lock(), &mut out, &mut vec![0; BUFFER])?;
    out.flush().map_err(Failure::Write)
}

/// Says on standard error what went wrong.
fn complain(message: &str) -> ExitCode {
    eprintln!("second_packets: {message}");
    ExitCode::FAILURE
}

/// Says so of the capture that `name` stands for, or of the output, if anything did.
fn ended(done: Result<(), Failure>, name: &OsStr) -> ExitCode {
    match done {
        Ok(()) => ExitCode::SUCCESS,
        Err(Failure::Read(error)) => complain(&format!("{}: {error}", called(name))),
        Err(Failure::Write(error)) => complain(&format!("standard output: {error}")),
    }
}

fn main() -> ExitCode {
    let words: Vec<OsString> = std::env::args_os().skip(1).collect();
    let standard_input = OsStr::new(STANDARD_INPUT);
    let (id, name) = match &words[..] {
        [form] if form == ANSWERS => return ended(write_answers(), standard_input),
        [id] => (id, standard_input),
        [id, name] => (id, name.as_os_str()),
        _ => return complain(USAGE),
    };
    match parse_id(id) {
        Some(id) => ended(write_named(id, name), name),
        None => complain(&format!("{}: no stream id", id.to_string_lossy())),
    }
}

#[cfg(test)]
mod tests {
    use super::*;
    use crate::capture::LONGEST_RECORD;
    use crate::samples::{admit_record, frame_record, record, sound, with, Slow};

    #[test]
    fn ids() {
        let id = |word: &str| parse_id(word.as_ref());
        for (word, number) in [
            ("0", 0),
            ("007", 7),
            ("18446744073709551615", u64::MAX),
            ("0x0", 0),
            ("0x00aBcDeF", 0xAB_CDEF),
            ("0xffffFFFFffffFFFF", u64::MAX),
        ] {
            assert_eq!(id(word), Some(number));
        }
        for word in [
            "",
            "-",
            "-1",
            "+1",
            " 1",
            "1 ",
            "a",
            "1f",
            "0x",
            "0X1",
            "x1",
            "0x+1",
            "0x-1",
            "0xg",
            "0x0x1",
            "18446744073709551616",
            "0x10000000000000000",
            "1_0",
            "\u{663}",
        ] {
            assert_eq!(id(word), None, "{word}");
        }
    }

    /// The packets of stream 7 in what `input` gives, and the line about them.
    fn packets(input: &mut impl Read) -> (Vec<u8>, Result<String, Failure>) {
        let mut out = vec![];
        let line = write_packets(7, input, &mut out, &mut vec![0; LONGEST_RECORD]);
        (out, line)
    }

    #[test]
    fn cut_captures_and_pieces() {
        let frame = |id, fraction: u8| with(sound(id, &[1, 2, 3, 4]), 44, fraction << 6 | 4);
        let capture = [
            admit_record(8),
            frame_record(0, &frame(7, 0)),
            frame_record(0, &frame(8, 0)),
            record(1, &[]),
            frame_record(0, &with(frame(7, 1), 45, 3)),
            frame_record(0, &frame(7, 1)),
            frame_record(0, &frame(7, 0)),
        ]
        .concat();
        for piece in [1, 7, capture.len()] {
            let (bytes, line) = packets(&mut Slow::new(&capture, piece));
            assert_eq!(bytes, [1, 2, 3, 4, 1, 2, 3, 4]);
            assert_eq!(line.unwrap(), "packets=2 dropped=1 passed_over=1");
            let (bytes, line) = packets(&mut Slow::new(&capture[..capture.len() - 1], piece));
            assert_eq!(bytes, [1, 2, 3, 4]);
            assert_eq!(line.unwrap(), "packets=1 dropped=0 passed_over=1");
            let (bytes, line) = packets(&mut Slow {
                fails: true,
                ..Slow::new(&capture[..capture.len() - 1], piece)
            });
            assert_eq!(bytes, [1, 2, 3, 4]);
            assert!(matches!(line, Err(Failure::Read(_))));
        }
        let (bytes, line) = packets(&mut &[][..]);
        assert_eq!((bytes, line.unwrap()), (vec![], "packets=0 dropped=0 passed_over=0".into()));
    }
}
