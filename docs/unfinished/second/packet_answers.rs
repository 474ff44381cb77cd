//! The answers to each frame of a capture, for one stream's source packets (request #110).

use crate::assembly::{Assembly, Packet};
use crate::capture::{parse_record, CaptureRecord};
use crate::reading::{read_records, Failure};
use crate::refusal::Refusal;
use crate::stream_input::read_id;
use std::io::{self, Read, Write};

/// Writes a packet's line.
fn write_packet(out: &mut impl Write, number: u64, packet: &Packet) -> io::Result<()> {
    write!(out, "{number} packet next={} stamp={} bytes=", packet.next, packet.stamp())?;
    packet.bytes.iter().try_for_each(|byte| write!(out, "{byte:02x}"))?;
    writeln!(out)
}

/// Writes the lines of the frame in record number `number`, which the assembly took in.
fn write_frame(
    out: &mut impl Write,
    number: u64,
    answer: &Result<Vec<Packet>, Refusal>,
    assembly: &Assembly,
) -> io::Result<()> {
    let packets = match answer {
        Ok(packets) => packets,
        Err(refusal) => return writeln!(out, "{number} refused {}", refusal.number()),
    };
    packets.iter().try_for_each(|packet| write_packet(out, number, packet))?;
    let Assembly { dropped, passed_over, .. } = assembly;
    let (count, unfinished) = (packets.len(), assembly.unfinished_bytes());
    write!(out, "{number} frame packets={count} dropped={dropped} passed={passed_over} ")?;
    writeln!(out, "unfinished={unfinished}")
}

/// Answers each frame of the capture after the stream's id. The last line is missing after
/// a read error.
pub fn answer_input(
    input: &mut impl Read,
    out: &mut impl Write,
    buffer: &mut [u8],
) -> Result<(), Failure> {
    let mut assembly = Assembly::new(read_id(input).map_err(Failure::Read)?);
    let mut number = 0;
    read_records(input, buffer, |record| {
        number += 1;
        match parse_record(record) {
            Ok(CaptureRecord::Frame { frame, .. }) => {
                let answer = assembly.take_in(frame);
                write_frame(out, number, &answer, &assembly)
            }
            _ => Ok(()),
        }
    })?;
    writeln!(out, "end dropped={} passed={}", assembly.dropped, assembly.passed_over)
        .map_err(Failure::Write)
}

#[cfg(test)]
mod tests {
    use super::*;
    use crate::capture::LONGEST_RECORD;
    use crate::samples::{
        admit_record, frame_record, record, remove_record, sound, tagged_0, with, Slow,
    };

    /// The answers to what `input` gives, and how it ended.
    fn answer(input: &mut impl Read) -> (String, Result<(), Failure>) {
        let mut out = vec![];
        let done = answer_input(input, &mut out, &mut vec![0; LONGEST_RECORD]);
        (String::from_utf8(out).unwrap(), done)
    }

    /// A record of a frame of stream 7 with SPH 1, FN 1, DBS 1 and these blocks.
    fn blocks(dbc: u8, blocks: &[u8]) -> Vec<u8> {
        let payload: Vec<u8> = blocks.iter().flat_map(|&byte| [byte; 4]).collect();
        frame_record(9, &with(with(sound(7, &payload), 44, 0x44), 45, dbc))
    }

    #[test]
    fn each_line() {
        let input = [
            7_u64.to_be_bytes().to_vec(),
            blocks(253, &[1, 0xAB, 3, 4]),
            admit_record(7),
            frame_record(0, &[]),
            frame_record(0, &sound(8, &[])),
            frame_record(0, &tagged_0(7, &[])),
            frame_record(0, &sound(7, &[])),
            frame_record(0, &with(with(sound(7, &[]), 43, 25), 44, 0x44)),
            remove_record(7),
            record(9, &[]),
            blocks(1, &[5]),
            blocks(4, &[6]),
            blocks(6, &[7, 8, 9, 10, 11]),
        ]
        .concat();
        let expected = "1 packet next=3 stamp=2880154539 bytes=abababab03030303\n\
            1 frame packets=1 dropped=0 passed=1 unfinished=4\n\
            3 refused 1\n\
            4 refused 15\n\
            5 refused 50\n\
            6 refused 51\n\
            7 refused 52\n\
            10 packet next=1 stamp=67372036 bytes=0404040405050505\n\
            10 frame packets=1 dropped=0 passed=1 unfinished=0\n\
            11 frame packets=0 dropped=0 passed=1 unfinished=4\n\
            12 packet next=2 stamp=117901063 bytes=0707070708080808\n\
            12 packet next=4 stamp=151587081 bytes=090909090a0a0a0a\n\
            12 frame packets=2 dropped=1 passed=1 unfinished=4\n\
            end dropped=1 passed=1\n";
        for piece in [1, 7, 100, input.len()] {
            let (lines, done) = answer(&mut Slow::new(&input, piece));
            assert!(done.is_ok());
            assert_eq!(lines, expected);
        }
        // The last record is cut.
        let (lines, done) = answer(&mut &input[..input.len() - 1]);
        assert!(done.is_ok());
        let kept: String = expected.lines().take(10).map(|line| format!("{line}\n")).collect();
        assert_eq!(lines, kept + "end dropped=0 passed=1\n");
    }

    #[test]
    fn no_capture() {
        for length in 0..=8 {
            let (lines, done) = answer(&mut &[1; 8][..length]);
            assert!(done.is_ok());
            assert_eq!(lines, "end dropped=0 passed=0\n");
        }
    }

    #[test]
    fn no_last_line_after_a_read_error() {
        let input = [7_u64.to_be_bytes().to_vec(), blocks(0, &[1])].concat();
        for (length, expected) in [
            (3, ""),
            (20, ""),
            (input.len(), "1 frame packets=0 dropped=0 passed=0 unfinished=4\n"),
        ] {
            let (lines, done) = answer(&mut Slow { fails: true, ..Slow::new(&input[..length], 5) });
            assert!(matches!(done, Err(Failure::Read(_))));
            assert_eq!(lines, expected);
        }
    }
}
