//! Answers questions about cycle time (request #101).
//!
//! `second_cycles` reads questions from standard input until its end, and writes
//! one line for each to standard output. A question is 64 bytes. Its first byte
//! says what is asked, and its numbers are eight bytes each, the least significant
//! first; bytes that no number and no frame has are not looked at:
//!
//! - 1: the cycle time of a nanosecond, which is at byte 2.
//! - 2: the nanosecond and the SYT of a cycle time: seconds at byte 2, cycle at
//!   byte 10, offset at byte 18.
//! - 3: the judgement of a frame by its SYT: the frame's length, up to 54, is
//!   byte 1, the arrival is at byte 2, and the frame starts at byte 10.
//!
//! Whatever else comes is answered with `no question`: another first byte, a
//! longer frame, a question that the input's end cuts short.
//!
//! This file is a root beside `list.rs`, over rooms that stand there too; from the
//! bottom: wire, refusal, cip, frame, cycle, question.
//!
//! Build: `build.sh OUTDIR`.

#[allow(dead_code)] // nothing is asked about a stream's format or its blocks
mod cip;
mod cycle;
mod frame;
mod question;
mod refusal;
#[allow(dead_code)] // nothing is asked about captures
#[cfg(test)]
mod samples;
mod wire;

use question::{answer, QUESTION};
use std::io::{self, BufReader, BufWriter, ErrorKind, Read, Write};
use std::process::ExitCode;

/// Room for the questions and for the answers at hand.
const BUFFER: usize = 64 * 1024;

/// Reads the next question, in as many pieces as it comes: how many of its bytes
/// there are before the input ends.
fn read_question(input: &mut impl Read, question: &mut [u8; QUESTION]) -> io::Result<usize> {
    let mut read = 0;
    while read < QUESTION {
        match input.read(&mut question[read..]) {
            Ok(0) => break,
            Ok(more) => read += more,
            Err(error) if error.kind() == ErrorKind::Interrupted => {}
            Err(error) => return Err(error),
        }
    }
    Ok(read)
}

/// Answers every question.
fn answer_all(input: &mut impl Read, out: &mut impl Write) -> io::Result<()> {
    let mut question = [0; QUESTION];
    loop {
        let read = read_question(input, &mut question)?;
        if read == 0 {
            return out.flush();
        }
        writeln!(out, "{}", answer(&question[..read]))?;
    }
}

fn main() -> ExitCode {
    let mut input = BufReader::with_capacity(BUFFER, io::stdin().lock());
    let mut out = BufWriter::with_capacity(BUFFER, io::stdout().lock());
    match answer_all(&mut input, &mut out) {
        Ok(()) => ExitCode::SUCCESS,
        Err(error) => {
            eprintln!("second_cycles: {error}");
            ExitCode::FAILURE
        }
    }
}

#[cfg(test)]
mod tests {
    use super::*;
    use crate::samples::Slow;

    /// The answers to questions that come in pieces.
    fn answers(questions: &[u8], piece: usize) -> String {
        let mut out = Vec::new();
        answer_all(&mut Slow::new(questions, piece), &mut out).unwrap();
        String::from_utf8(out).unwrap()
    }

    #[test]
    fn pieces_of_any_size() {
        let mut first = [0; QUESTION];
        first[0] = 1;
        let mut second = [0; QUESTION];
        second[0] = 2;
        let both = [first, second].concat();
        let first_line = "ns=0 seconds=0 cycle=0 offset=0 ticks=0 syt=0\n";
        let second_line = "seconds=0 cycle=0 offset=0 ns=0 syt=0\n";
        for piece in 1..=both.len() {
            assert_eq!(answers(&[], piece), "");
            assert_eq!(answers(&both[..1], piece), "no question\n");
            assert_eq!(answers(&both[..63], piece), "no question\n");
            assert_eq!(answers(&both[..64], piece), first_line);
            assert_eq!(answers(&both[..127], piece), format!("{first_line}no question\n"));
            assert_eq!(answers(&both, piece), format!("{first_line}{second_line}"));
        }
    }

    #[test]
    fn a_read_error_is_said() {
        let mut slow = Slow { fails: true, ..Slow::new(&[1; 100], 7) };
        let mut out = Vec::new();
        assert!(answer_all(&mut slow, &mut out).is_err());
        assert_eq!(out.iter().filter(|&&byte| byte == b'\n').count(), 1);
    }
}
