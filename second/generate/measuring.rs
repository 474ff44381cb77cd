//! Captures that speed is measured on.

use crate::captures::Capture;
use crate::chance::Chance;
use crate::frames::{block_size, Frame};
use crate::times::stamp;
use std::fs::{self, File};
use std::io::{self, BufWriter, Write};
use std::path::Path;

/// Records in each capture for measuring.
const BENCH_RECORDS: usize = 200_000;

/// Writes a capture of `streams` streams, all admitted first, whose frames take
/// turns; `fill` sets the payload of each.
fn bench(
    path: &Path,
    streams: usize,
    shape: impl Fn(&mut Frame),
    fill: impl Fn(&mut Chance, &mut Frame, u64),
) -> io::Result<()> {
    let chance = &mut Chance::new(0xB, streams as u64);
    let mut out = BufWriter::with_capacity(1 << 20, File::create(path)?);
    let mut frames = Vec::with_capacity(streams);
    let mut capture = Capture::new(usize::MAX);
    for _ in 0..streams {
        let id = chance.next();
        let mut frame = Frame::sound(chance, id);
        shape(&mut frame);
        capture.admit(id);
        frames.push(frame);
    }
    let mut at = 1_000_000_000_000;
    for turn in 0..BENCH_RECORDS - streams {
        let frame = &mut frames[turn % streams];
        at += 125_000 / streams as u64;
        fill(chance, frame, at);
        capture.frame(at, &frame.bytes());
        frame.sequence = frame.sequence.wrapping_add(1);
        let blocks = frame.payload.len() / block_size(frame.dbs);
        frame.dbc = frame.dbc.wrapping_add(blocks as u8);
        capture.write_out(&mut out)?;
    }
    out.flush()
}

/// Writes the captures that speed is measured on.
pub fn bench_captures(dir: &Path) -> io::Result<()> {
    fs::create_dir_all(dir)?;
    // Frames of 50 to 60 bytes, of which up to 8 are payload.
    for streams in [1, 16, 64] {
        let fill = |chance: &mut Chance, frame: &mut Frame, at| {
            frame.carry(vec![0; 4 * chance.below(3)]);
            frame.padding.resize(chance.below(11 - frame.payload.len()), 0);
            frame.stamp(stamp(at, 2_000_000));
        };
        bench(&dir.join(format!("small-{streams}.cap")), streams, |_| (), fill)?;
    }
    // IEC 61883-6: audio, six or seven samples of six channels a frame.
    let audio = |frame: &mut Frame| {
        (frame.dbs, frame.fmt, frame.fdf) = (6, 0x10, 0x02);
    };
    bench(&dir.join("audio-8.cap"), 8, audio, |chance, frame, at| {
        let blocks = 6 + chance.below(2);
        frame.carry(chance.bytes(blocks * 24));
        frame.stamp(stamp(at, 2_000_000));
    })?;
    // IEC 61883-4: source packets of 192 bytes, each eight blocks.
    let video = |frame: &mut Frame| {
        (frame.dbs, frame.fmt, frame.fraction, frame.sph) = (6, 0x20, 3, true);
    };
    bench(&dir.join("video-4.cap"), 4, video, |chance, frame, at| {
        let packets = chance.within(1, 7);
        frame.carry(chance.bytes(packets * 192));
        frame.stamp(stamp(at, 2_000_000));
    })?;
    // IIDC: pictures of 320 by 240 pixels, a line of 640 bytes a frame, with tag 0.
    bench(
        &dir.join("camera-4.cap"),
        4,
        |_| (),
        |chance, frame, at| {
            frame.carry_bare(chance.bytes(640));
            frame.stamp(stamp(at, 2_000_000));
        },
    )
}
