//! Captures at the edges of one rule each.

use crate::bare::bare_payload;
use crate::captures::{Capture, SMALL};
use crate::chance::Chance;
use crate::damage::{spoil, spoiled, FIELD_CHECKS};
use crate::frames::{block_size, Frame, LONGEST_BARE_PAYLOAD};
use crate::limits;
use crate::senders::{stream_ids, Sender};
use crate::times::{around_half_a_wrap, arrival, offset, stamp};

/// Frames that one check refuses, or two, or none.
pub fn refusals(chance: &mut Chance) -> Capture {
    let mut capture = Capture::new(SMALL);
    let mut sender = Sender::new(chance, 7);
    sender.most_blocks = sender.most_blocks.min(if sender.frame.dbs == 0 { 1 } else { 4 });
    capture.admit(7);
    for round in 0..64 {
        if capture.full() {
            break;
        }
        let at = arrival(chance);
        let mut frame = sender.send(chance, at);
        let first = 1 + (round % 16) as u8;
        let second = chance.pick(FIELD_CHECKS);
        if round >= 16 && second != first {
            spoil(chance, &mut frame, second);
        }
        let bytes = spoiled(chance, &mut frame, first);
        capture.frame(at, &bytes);
        if chance.flip() {
            capture.frame(at, &sender.send(chance, at).bytes());
        }
    }
    capture
}

/// Frames with each QPC that isn't 0, then with any of them and each other thing that
/// can be wrong. After each comes a sound one, which shows what is in the record.
pub fn padding_counts(chance: &mut Chance) -> Capture {
    let mut capture = Capture::new(SMALL);
    let mut sender = Sender::new(chance, 7);
    capture.admit(7);
    for qpc in 1..=7 {
        let at = arrival(chance);
        sender.stray(chance);
        let mut frame = sender.send(chance, at);
        frame.qpc = qpc;
        capture.frame(at, &frame.bytes());
        capture.frame(at, &sender.send(chance, at).bytes());
    }
    for number in 2..=15 {
        let at = arrival(chance);
        let mut frame = sender.send(chance, at);
        spoil(chance, &mut frame, 16);
        let bytes = spoiled(chance, &mut frame, number);
        capture.frame(at, &bytes);
        capture.frame(at, &sender.send(chance, at).bytes());
    }
    capture
}

/// Frame lengths and stream_data_lengths at their edges.
pub fn lengths(chance: &mut Chance) -> Capture {
    let mut capture = Capture::new(SMALL);
    capture.admit(0);
    for _ in 0..60 {
        if capture.full() {
            break;
        }
        let mut frame = Frame::sound(chance, 0);
        frame.dbs = chance.pick(&[1, 1, 1, 2, 0]);
        let length = chance.pick(&[
            0, 1, 17, 18, 40, 41, 42, 43, 48, 49, 50, 51, 53, 54, 57, 58, 60, 64, 1073, 1074, 1075,
            1514, 1517, 1518, 1519, 1520,
        ]);
        let payload = usize::saturating_sub(length, 50);
        frame.carry(chance.bytes(payload));
        // With tag 0, what is else the CIP header is payload.
        frame.tag = chance.pick(&[1, 1, 1, 0]);
        frame.stream_data_length = match chance.below(7) {
            0 => length.saturating_sub(42) as u16,
            1 => length.saturating_sub(41) as u16,
            2 => chance.pick(&[0, 1, 7, 8, 9, 12, 16, 1032, 1028, 1036]),
            3 => chance.pick(&[1468, 1476, 1477, 65_535, 32_768, 256]),
            // As many whole blocks as there is room for, the rest padding.
            _ => (payload / block_size(frame.dbs) * block_size(frame.dbs) + 8) as u16,
        };
        let mut bytes = frame.bytes();
        bytes.truncate(length);
        capture.frame(arrival(chance), &bytes);
    }
    capture
}

/// Admissions up to the table's end and past it, among frames, and of streams that are
/// admitted already; removals free no place for them. In every second capture there are
/// transit limits too, some too large.
pub fn admissions(chance: &mut Chance) -> Capture {
    let mut capture = Capture::new(SMALL);
    let limited = chance.flip();
    let count = chance.within(60, 75);
    let ids = stream_ids(chance, count);
    let mut senders: Vec<Sender> = ids.iter().map(|&id| Sender::new(chance, id)).collect();
    for sender in &mut senders {
        sender.most_blocks = sender.most_blocks.min(1);
    }
    if chance.one_in(3) {
        capture.remove(ids[0]);
    }
    // The table is full then, or nearly.
    let early = if chance.flip() { count } else { chance.within(50, 63) };
    for &id in ids.iter().take(early) {
        limits::admit(chance, &mut capture, id, limited);
    }
    for _ in 0..chance.within(20, 120) {
        if capture.full() {
            break;
        }
        let which = chance.below(count);
        let at = arrival(chance);
        match chance.below(6) {
            0 => limits::admit(chance, &mut capture, ids[which], limited),
            1 => capture.remove(ids[which]),
            2 => {
                capture.remove(ids[which]);
                limits::admit(chance, &mut capture, ids[which], limited);
            }
            3 => {
                let id = chance.next();
                limits::admit(chance, &mut capture, id, limited);
            }
            _ => capture.frame(at, &senders[which].send(chance, at).bytes()),
        }
    }
    capture
}

/// Record lengths and kinds at their edges.
pub fn records(chance: &mut Chance) -> Capture {
    let mut capture = Capture::new(SMALL);
    let kinds =
        [0, 1, 1, 2, 2, 3, 3, 3, 4, 5, 5, 6, 255, 256, 257, 259, 512, 768, 771, 1280, 1281, 65_535];
    for _ in 0..chance.within(10, 80) {
        if capture.full() {
            break;
        }
        let kind: u16 = chance.pick(&kinds);
        let length = match chance.below(15) {
            0 => 0,
            1 => 1,
            2 => 2,
            3 => chance.within(3, 8),
            4 => 9,
            5 => chance.pick(&[11, 12]),
            6 => chance.within(2, 70),
            7 if chance.one_in(12) => 65_535,
            8 => chance.pick(&[13, 15]),
            9 | 10 => 14,
            _ => 10,
        };
        let mut counted = kind.to_le_bytes().to_vec();
        counted.extend_from_slice(&(chance.below(6) as u64).to_be_bytes());
        counted.resize(length, 0x55);
        capture.record(&counted);
        if chance.one_in(8) {
            capture.frame(0, &Frame::sound(chance, 5).bytes());
        }
    }
    capture
}

/// Every offset and arrival at the edges, from the timestamp or the payload; in every
/// second capture under a transit limit.
pub fn times(chance: &mut Chance) -> Capture {
    let mut capture = Capture::new(SMALL);
    if chance.flip() {
        capture.admit(3);
    } else {
        capture.admit_limited(3, limits::allowed(chance));
    }
    let mut frame = Frame::sound(chance, 3);
    for _ in 0..150 {
        let (at, offset) = if chance.one_in(4) {
            around_half_a_wrap(chance)
        } else {
            (arrival(chance), offset(chance))
        };
        frame.sequence = frame.sequence.wrapping_add(1);
        frame.tv = !chance.one_in(5);
        frame.tu = chance.flip();
        frame.choose_bare(chance.one_in(6));
        frame.sph = chance.one_in(3);
        frame.dbs = chance.pick(&[1, 2, 6]);
        let blocks = if chance.one_in(4) { 0 } else { chance.within(1, 3) };
        frame.timestamp = chance.next() as u32;
        frame.carry(chance.bytes(blocks * block_size(frame.dbs)));
        if chance.one_in(8) {
            // A stamp as if times were plain numbers.
            frame.stamp(at as u32);
        } else {
            frame.stamp(stamp(at, offset));
        }
        capture.frame(at, &frame.bytes());
        frame.dbc = frame.dbc.wrapping_add(frame.blocks() as u8);
    }
    capture
}

/// Block sizes and counts: DBS 0 whole and broken, over 256 blocks, none. Now and then a
/// frame of tag 0 is between.
pub fn blocks(chance: &mut Chance) -> Capture {
    let mut capture = Capture::new(SMALL);
    capture.admit(u64::MAX);
    let mut frame = Frame::sound(chance, u64::MAX);
    for _ in 0..120 {
        if capture.full() {
            break;
        }
        if chance.one_in(8) {
            let mut camera = frame.clone();
            camera.carry_bare(bare_payload(chance, &frame, LONGEST_BARE_PAYLOAD));
            capture.frame(arrival(chance), &camera.bytes());
            frame.sequence = frame.sequence.wrapping_add(1);
        }
        let (dbs, payload) = match chance.below(10) {
            0 => (0, chance.bytes(1024)),
            1 => (0, vec![]),
            2 => (0, vec![1; chance.pick(&[1, 4, 1020, 1023, 1025, 1028, 1468])]),
            3 => (1, vec![2; 4 * chance.pick(&[367, 366, 257, 256, 255])]),
            4 => (1, vec![]),
            5 => (chance.pick(&[2, 3, 7]), vec![3; 4 * chance.within(1, 24)]),
            6 => (255, vec![4; chance.pick(&[1020, 1019, 1024, 0])]),
            7 => (6, vec![5; 24 * 8 * chance.within(0, 7)]),
            _ => (1, vec![6; 4 * chance.within(0, 9)]),
        };
        frame.sph = chance.one_in(4);
        frame.dbs = dbs;
        frame.carry(payload);
        let size = block_size(frame.dbs);
        capture.frame(arrival(chance), &frame.bytes());
        // The next count by the rules, or what a wrong one would expect.
        if frame.payload.len() % size == 0 || chance.one_in(3) {
            frame.sequence = frame.sequence.wrapping_add(1);
            frame.dbc = match chance.below(6) {
                0 => frame.dbc.wrapping_add(1),
                1 => frame.dbc,
                _ => frame.dbc.wrapping_add((frame.payload.len() / size) as u8),
            };
        }
    }
    capture
}
