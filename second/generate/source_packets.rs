//! Captures of a gateway's frames, in which source packets start in any block or
//! in none.

use crate::captures::{Capture, SMALL};
use crate::chance::Chance;
use crate::frames::{block_size, Frame, LONGEST_PAYLOAD};
use crate::times::{arrival, offset, stamp};

/// A DBC: the next one by the rules, one at most two source packets of `packet`
/// blocks before the wrap, or any.
fn dbc(chance: &mut Chance, next: u8, packet: usize) -> u8 {
    match chance.below(4) {
        0 => next,
        1 => chance.byte(),
        _ => (chance.below(2 * packet + 1) as u8).wrapping_neg(),
    }
}

/// A number of blocks, often at an edge. The first source packet starts after
/// `before` blocks, and each is `packet` blocks.
fn block_count(chance: &mut Chance, before: usize, packet: usize) -> usize {
    match chance.below(8) {
        0 => 0,
        1 => before,
        2 => chance.within(0, before),
        3 => before + 1,
        4 => before + packet,
        5 => before + packet + 1,
        6 => before + chance.within(1, 4 * packet),
        _ => chance.within(1, LONGEST_PAYLOAD / 4),
    }
}

/// Stamps, none twice, often at an edge of the offsets.
fn stamps(chance: &mut Chance, arrival: u64, count: usize) -> Vec<u32> {
    let mut stamps = Vec::with_capacity(count);
    while stamps.len() < count {
        let stamp = stamp(arrival, offset(chance));
        if !stamps.contains(&stamp) {
            stamps.push(stamp);
        }
    }
    stamps
}

/// Fills the frame with blocks, and its padding with more, which are not looked
/// at. Each opens with a stamp of its own, and the timestamp is another, so that
/// none is taken for the right one unseen.
fn fill(chance: &mut Chance, frame: &mut Frame, arrival: u64, blocks: usize, padding: usize) {
    let size = block_size(frame.dbs);
    let stamps = stamps(chance, arrival, 1 + blocks + padding);
    let mut payload = chance.bytes((blocks + padding) * size);
    for (block, stamp) in payload.chunks_exact_mut(size).zip(&stamps[1..]) {
        block[..4].copy_from_slice(&stamp.to_be_bytes());
    }
    frame.timestamp = stamps[0];
    frame.padding = payload.split_off(blocks * size);
    frame.carry(payload);
}

/// Frames with SPH 1 and any FN that begin with a source packet or in the middle
/// of one, with all that follows: no start, one in the last block, several, DBC
/// that wraps at the first start or after it, no blocks.
pub fn source_packets(chance: &mut Chance) -> Capture {
    let mut capture = Capture::new(SMALL);
    capture.admit(4);
    let mut frame = Frame::sound(chance, 4);
    frame.sph = true;
    while !capture.full() {
        let at = arrival(chance);
        frame.sequence = frame.sequence.wrapping_add(1);
        frame.tv = chance.flip();
        frame.tu = chance.flip();
        frame.fraction = chance.below(4) as u8;
        frame.dbs = chance.pick(&[1, 1, 1, 1, 2, 2, 3, 6, 6, 6, 40, 255, 0, 0]);
        let packet = 1 << frame.fraction;
        frame.dbc = dbc(chance, frame.dbc, packet);
        let room = LONGEST_PAYLOAD / block_size(frame.dbs);
        let blocks = block_count(chance, frame.blocks_before_start(), packet).min(room);
        let padding = if chance.one_in(6) { packet.min(room - blocks) } else { 0 };
        fill(chance, &mut frame, at, blocks, padding);
        capture.frame(at, &frame.bytes());
        frame.dbc = frame.dbc.wrapping_add(blocks as u8);
    }
    capture
}
