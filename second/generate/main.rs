//! Generates captures of IEC 61883 and IIDC streams over AVTP: sound, damaged and
//! hostile ones, the same for the same seed; and questions about cycle time.
//!
//! - `generate DIR SEED COUNT` writes COUNT captures DIR/000000.cap and on.
//! - `generate --million FILE` writes a capture with more frames of a stream than a
//!   visit report sums.
//! - `generate --bench DIR` writes the captures that speed is measured on.
//! - `generate --drip FILE PIECE` writes FILE to standard output, PIECE bytes at
//!   a time, each piece flushed.
//! - `generate --thin DIR FILE..` writes each capture DIR/FILE: FILE with nothing but
//!   frames after the last admission that is obeyed.
//! - `generate --edge-questions` writes the questions about cycle time at the edges
//!   of each rule to standard output.
//! - `generate --questions SEED` writes those of a long comparison.
//!
//! The generator has this folder to itself: rustc looks for a root's modules
//! beside the root, and these are none of the other programs' rooms. Nothing is
//! shared with those: the generator knows the layouts by itself, and makes damaged
//! frames too.
//!
//! Build: `build.sh OUTDIR`.

mod bare;
mod cameras;
mod captures;
mod chance;
mod cycle_edges;
mod cycle_runs;
mod damage;
mod edges;
mod frames;
mod kinds;
mod limits;
mod measuring;
mod million;
mod noise;
mod questions;
mod removals;
mod senders;
mod source_packets;
mod thinning;
mod ticks;
mod times;
mod traffic;
mod transit;
mod visits;

use std::fs;
use std::io::{self, BufWriter, Write};
use std::path::Path;
use std::process::ExitCode;

/// Writes the captures of a seed.
fn write_captures(dir: &Path, seed: u64, count: u64) -> io::Result<()> {
    fs::create_dir_all(dir)?;
    for index in 0..count {
        fs::write(dir.join(format!("{index:06}.cap")), kinds::capture(seed, index))?;
    }
    Ok(())
}

/// Writes a file to standard output in small pieces.
fn drip(file: &Path, piece: usize) -> io::Result<()> {
    let mut out = io::stdout().lock();
    for piece in fs::read(file)?.chunks(piece.max(1)) {
        out.write_all(piece)?;
        out.flush()?;
        std::thread::yield_now();
    }
    Ok(())
}

/// Writes the edge questions to standard output.
fn write_edge_questions() -> io::Result<()> {
    let mut out = io::stdout().lock();
    out.write_all(&cycle_edges::edge_questions())?;
    out.flush()
}

/// Writes the questions of a seed to standard output.
fn write_questions(seed: u64) -> io::Result<()> {
    let mut out = BufWriter::with_capacity(1 << 16, io::stdout().lock());
    cycle_runs::write_questions(seed, &mut out)?;
    out.flush()
}

const USAGE: &str = "usage: generate DIR SEED COUNT
       generate --million FILE
       generate --bench DIR
       generate --drip FILE PIECE
       generate --thin DIR FILE..
       generate --edge-questions
       generate --questions SEED";

fn main() -> ExitCode {
    let words: Vec<String> = std::env::args().skip(1).collect();
    let words: Vec<&str> = words.iter().map(String::as_str).collect();
    let done = match words[..] {
        ["--edge-questions"] => write_edge_questions(),
        ["--questions", seed] => match seed.parse() {
            Ok(seed) => write_questions(seed),
            Err(_) => Err(io::Error::other(USAGE)),
        },
        ["--million", file] => million::write_million(Path::new(file)),
        ["--bench", dir] => measuring::bench_captures(Path::new(dir)),
        ["--drip", file, piece] => match piece.parse() {
            Ok(piece) => drip(Path::new(file), piece),
            Err(_) => Err(io::Error::other(USAGE)),
        },
        ["--thin", dir, ref names @ ..] => thinning::write_thinned(Path::new(dir), names),
        [dir, seed, count] => match (seed.parse(), count.parse()) {
            (Ok(seed), Ok(count)) => write_captures(Path::new(dir), seed, count),
            _ => Err(io::Error::other(USAGE)),
        },
        _ => Err(io::Error::other(USAGE)),
    };
    match done {
        Ok(()) => ExitCode::SUCCESS,
        Err(error) => {
            eprintln!("generate: {error}");
            ExitCode::FAILURE
        }
    }
}
