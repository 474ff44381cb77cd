//! Captures without the records that change nothing (request #109).

use crate::captures::Capture;
use crate::limits::LARGEST_LIMIT;
use std::collections::BTreeSet;
use std::fs;
use std::io;
use std::path::Path;

/// Places of the table.
const PLACES: usize = 64;

/// Whether a record, given without its length, is an admission that is obeyed; `admitted`
/// are the streams so far, and take the stream in.
fn admits(admitted: &mut BTreeSet<[u8; 8]>, record: &[u8]) -> bool {
    let (id, limit) = match *record {
        [2, 0, ref id @ ..] => (id, LARGEST_LIMIT),
        [5, 0, ref id @ .., a, b, c, d] => (id, u32::from_le_bytes([a, b, c, d])),
        _ => return false,
    };
    match id.try_into() {
        Ok(id) => limit <= LARGEST_LIMIT && admitted.len() < PLACES && admitted.insert(id),
        Err(_) => false,
    }
}

/// Whether a record, given without its length, has a frame.
fn has_frame(record: &[u8]) -> bool {
    record.starts_with(&[1, 0]) && record.len() >= 10
}

/// The capture with nothing but frames after the last admission that is obeyed.
fn thinned(capture: &[u8]) -> Vec<u8> {
    let mut admitted = BTreeSet::new();
    let (mut before, mut after) = (&[][..], Capture::new(usize::MAX));
    let mut rest = capture;
    while let Some((&[low, high], counted)) = rest.split_first_chunk() {
        let length = usize::from(u16::from_le_bytes([low, high]));
        let Some((record, others)) = counted.split_at_checked(length) else {
            break;
        };
        rest = others;
        if admits(&mut admitted, record) {
            before = &capture[..capture.len() - rest.len()];
            after.bytes.clear();
        } else if has_frame(record) {
            after.record(record);
        }
    }
    [before, &after.bytes].concat()
}

/// Writes each capture named, thinned, under its name in a folder.
pub fn write_thinned(dir: &Path, names: &[&str]) -> io::Result<()> {
    fs::create_dir_all(dir)?;
    for name in names {
        fs::write(dir.join(name), thinned(&fs::read(name)?))?;
    }
    Ok(())
}
