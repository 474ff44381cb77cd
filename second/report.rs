//! Prints the visit report of a capture (requests #104, #106 and #107).
//!
//! `second_report [FILE]` goes through the capture named as `second_list` does; `-`,
//! or no name, stands for standard input. Then it prints one line for each stream
//! that was admitted, in table order:
//!
//! - the stream's id;
//! - its accepted frames;
//! - how many of them raised each flag: sequence, block, format, mr;
//! - how many had each kind of time: none, cut, outside, late, ahead, unclear, far;
//! - over those ahead or late, the smallest and the largest offset, the sum, and the
//!   mean as that sum over its count, or `none` for each of the four;
//! - how many ahead or late frames are not in these four, which are over the first
//!   1,000,000 only.
//!
//! All is counted from the stream's admission on. A cut capture is reported as far as
//! it goes; after a read error nothing is printed but the message.
//!
//! This file is a root beside `list.rs`, over rooms that stand there too; from the
//! bottom: wire, refusal, cip, frame, presentation, stream, table, capture, outcome,
//! input, reading, visit, visit_report.
//!
//! Build: `build.sh OUTDIR`.

mod capture;
mod cip;
mod frame;
mod input;
mod outcome;
#[allow(dead_code)] // no time's kind is printed
mod presentation;
mod reading;
#[allow(dead_code)] // nothing refused is printed
mod refusal;
#[cfg(test)]
mod samples;
mod stream;
mod table;
mod visit;
mod visit_report;
mod wire;

use input::{called, open, STANDARD_INPUT};
use reading::{Failure, BUFFER};
use std::ffi::{OsStr, OsString};
use std::io;
use std::process::ExitCode;
use visit_report::report_capture;

/// Reports the capture that `name` stands for.
fn report_named(name: &OsStr) -> Result<(), Failure> {
    let mut input = open(name).map_err(Failure::Read)?;
    report_capture(&mut input, &mut io::stdout().lock(), &mut vec![0; BUFFER])
}

/// Says on standard error what went wrong.
fn complain(message: &str) -> ExitCode {
    eprintln!("second_report: {message}");
    ExitCode::FAILURE
}

fn main() -> ExitCode {
    let names: Vec<OsString> = std::env::args_os().skip(1).collect();
    let name = match &names[..] {
        [] => OsStr::new(STANDARD_INPUT),
        [name] => name,
        // Two reports would stand with nothing between them.
        _ => return complain("usage: second_report [FILE]"),
    };
    match report_named(name) {
        Ok(()) => ExitCode::SUCCESS,
        Err(Failure::Read(error)) => complain(&format!("{}: {error}", called(name))),
        Err(Failure::Write(error)) => complain(&format!("standard output: {error}")),
    }
}
