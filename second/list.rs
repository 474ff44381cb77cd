//! Lists captures of IEC 61883 and IIDC streams carried over AVTP (IEEE Std 1722-2011).
//!
//! `second_list [FILE..]` lists each capture named, one after the other, each
//! with a fresh stream table and a first and last line of its own. `-`, or no
//! name at all, stands for standard input.
//!
//! Captures of any size are read in fixed memory. The judgement of a frame is
//! computed whole: its fields, its flags, its presentation time and the stream
//! record with its counts, though a listing prints only part of it.
//!
//! This file is the root of one program. The rooms stand beside it, a file each,
//! under the names of the main program's crates where these have the same room;
//! from the bottom: wire, refusal, cip, frame, presentation, stream, table,
//! capture, outcome, lines, input, reading, listing. A room names only those before
//! it. They stand here, and not in a folder of this program, so that another program
//! over the same rooms is another root beside this one, as `report.rs`, `cycles.rs`
//! and `cases.rs` are: its `mod` lines name the rooms that it needs, and rustc finds
//! them by itself. The generator has a folder to itself: it knows the layouts by
//! itself, so that a mistake in a room here is not made there as well.
//!
//! Build: `build.sh OUTDIR`.

mod capture;
mod cip;
mod frame;
mod input;
mod lines;
mod listing;
mod outcome;
mod presentation;
mod reading;
mod refusal;
#[cfg(test)]
mod samples;
mod stream;
mod table;
mod wire;

use input::{called, open, STANDARD_INPUT};
use listing::list_capture;
use reading::{Failure, BUFFER};
use std::ffi::{OsStr, OsString};
use std::io::{self, Write};
use std::process::ExitCode;

/// Lists the capture that `name` stands for.
fn list_named(name: &OsStr, out: &mut impl Write, buffer: &mut [u8]) -> Result<(), Failure> {
    let mut input = open(name).map_err(Failure::Read)?;
    list_capture(&mut input, out, buffer)
}

/// Says on standard error what went wrong with what.
fn complain(what: &str, error: io::Error) -> ExitCode {
    eprintln!("second_list: {what}: {error}");
    ExitCode::FAILURE
}

fn main() -> ExitCode {
    let mut names: Vec<OsString> = std::env::args_os().skip(1).collect();
    if names.is_empty() {
        names.push(STANDARD_INPUT.into());
    }
    let mut buffer = vec![0; BUFFER];
    let mut out = io::stdout().lock();
    let mut code = ExitCode::SUCCESS;
    for name in &names {
        match list_named(name, &mut out, &mut buffer) {
            Ok(()) => {}
            Err(Failure::Read(error)) => code = complain(&called(name), error),
            Err(Failure::Write(error)) => return complain("standard output", error),
        }
    }
    match out.flush() {
        Ok(()) => code,
        Err(error) => complain("standard output", error),
    }
}
