//! Payloads of tag 0, which have no CIP header before them (request #108).

use crate::chance::Chance;
use crate::frames::Frame;

/// Lengths of payloads of tag 0 at the edges: around a CIP header's length, a block of 256
/// quadlets and the longest.
const SHORT: [usize; 14] = [0, 0, 1, 2, 3, 4, 5, 6, 7, 8, 8, 9, 12, 16];
const LONG: [usize; 8] = [1020, 1023, 1024, 1025, 1032, 1475, 1476, 1476];

/// What would be a CIP header, like that of a frame, or with something changed.
fn like_cip_header(chance: &mut Chance, frame: &Frame) -> [u8; 8] {
    let mut frame = Frame { qpc: 0, ..frame.clone() };
    match chance.below(7) {
        0 => frame.sph = true,
        1 => (frame.sph, frame.dbs, frame.fraction) = (true, 1, 0),
        2 => frame.qpc = chance.within(1, 7) as u8,
        3 => frame.dbc = frame.dbc.wrapping_add(chance.pick(&[1, 2, 128, 255])),
        4 => frame.dbs ^= 1 << chance.below(8),
        5 => frame.fmt ^= 1 << chance.below(6),
        _ => {}
    }
    frame.cip_header()
}

/// A payload of tag 0 of up to `most` bytes. Mostly it opens with what would be a CIP
/// header, often like that of the frame `like`.
pub fn bare_payload(chance: &mut Chance, like: &Frame, most: usize) -> Vec<u8> {
    let length = match chance.below(4) {
        0 | 1 => chance.pick(&SHORT),
        2 => chance.pick(&LONG),
        _ => chance.within(0, most),
    };
    let opening = match chance.below(9) {
        0 => vec![],
        1 => vec![chance.pick(&[0, 0xFF]); length],
        _ => like_cip_header(chance, like).to_vec(),
    };
    let mut payload = [opening, chance.bytes(length)].concat();
    payload.truncate(length.min(most));
    payload
}
