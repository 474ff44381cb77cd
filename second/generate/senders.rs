//! Streams and what sends their frames.

use crate::bare::bare_payload;
use crate::chance::Chance;
use crate::frames::{block_size, Frame, LONGEST_PAYLOAD};
use crate::times::{offset, stamp};

/// What sends a stream's frames.
pub struct Sender {
    /// The stream's frame with all that stays the same.
    pub frame: Frame,
    /// Most blocks in a frame.
    pub most_blocks: usize,
    pub sequence: u8,
    pub dbc: u8,
    /// How many of eight frames have tag 0 (request #108).
    pub tag_0: usize,
}

impl Sender {
    pub fn new(chance: &mut Chance, id: u64) -> Sender {
        let mut sender = Sender {
            frame: Frame::sound(chance, id),
            most_blocks: 0,
            sequence: chance.pick(&[0, 250, 253, 255, 128]),
            dbc: chance.byte(),
            tag_0: chance.pick(&[0, 0, 0, 0, 0, 0, 0, 1, 4, 8]),
        };
        sender.choose_format(chance);
        sender
    }

    /// Takes up another block size, FMT, FN or SPH, or the same as before.
    pub fn choose_format(&mut self, chance: &mut Chance) {
        let frame = &mut self.frame;
        match chance.below(8) {
            0 => frame.dbs = 0,
            1 => frame.dbs = 1,
            2 => frame.dbs = chance.pick(&[2, 6, 8, 64, 128, 255]),
            3 => frame.dbs = chance.byte(),
            4 => frame.fmt ^= 1 << chance.below(6),
            5 => frame.fraction ^= chance.within(1, 3) as u8,
            6 => frame.sph = !frame.sph,
            // None of these is a change of format.
            _ => {
                frame.fdf = chance.byte();
                frame.low_half = chance.next() as u16;
                frame.cip_reserved = chance.byte() & 3;
                frame.sid = chance.byte() & 0x3F;
            }
        }
        let room = LONGEST_PAYLOAD / block_size(frame.dbs);
        self.most_blocks = match chance.below(6) {
            0 => room,
            1 => 0,
            _ => room.min(chance.within(1, 12)),
        };
    }

    /// Does what its frames so far don't lead to: takes up another sequence number,
    /// block count, mr or format.
    pub fn stray(&mut self, chance: &mut Chance) {
        match chance.below(4) {
            0 => self.sequence = self.sequence.wrapping_add(chance.pick(&[1, 2, 127, 254, 255])),
            1 => self.dbc = self.dbc.wrapping_add(chance.pick(&[1, 2, 8, 128, 255])),
            2 => self.frame.mr = !self.frame.mr,
            _ => self.choose_format(chance),
        }
    }

    /// The next frame, as it arrives at `arrival`.
    pub fn send(&mut self, chance: &mut Chance, arrival: u64) -> Frame {
        if chance.below(8) < self.tag_0 {
            let most = self.most_blocks * block_size(self.frame.dbs) + 8;
            self.send_bare(chance, arrival, most)
        } else {
            self.send_blocks(chance, arrival)
        }
    }

    /// The next frame, which has tag 1.
    pub fn send_blocks(&mut self, chance: &mut Chance, arrival: u64) -> Frame {
        let mut frame = self.next_frame(chance);
        let blocks = match chance.below(4) {
            0 => chance.within(0, self.most_blocks),
            1 if chance.one_in(4) => 0,
            _ => self.most_blocks,
        };
        frame.carry(chance.bytes(blocks * block_size(frame.dbs)));
        self.dbc = self.dbc.wrapping_add(blocks as u8);
        finish(chance, &mut frame, arrival);
        frame
    }

    /// The next frame, which has tag 0 and a payload of up to `most` bytes.
    pub fn send_bare(&mut self, chance: &mut Chance, arrival: u64, most: usize) -> Frame {
        let mut frame = self.next_frame(chance);
        let payload = bare_payload(chance, &frame, most);
        frame.carry_bare(payload);
        finish(chance, &mut frame, arrival);
        frame
    }

    /// The next frame without its payload.
    fn next_frame(&mut self, chance: &mut Chance) -> Frame {
        let mut frame = self.frame.clone();
        frame.tv = !chance.one_in(6);
        frame.tu = chance.one_in(4);
        frame.sequence = self.sequence;
        frame.dbc = self.dbc;
        frame.tcode = chance.byte() & 0xF;
        self.sequence = self.sequence.wrapping_add(1);
        frame
    }
}

/// Gives a frame with its payload a stamp, and some padding.
fn finish(chance: &mut Chance, frame: &mut Frame, arrival: u64) {
    frame.stamp(stamp(arrival, offset(chance)));
    let padding = match chance.below(6) {
        0 => chance.within(1, 14),
        1 if frame.payload.is_empty() => 10,
        _ => 0,
    };
    frame.pad(chance.bytes(padding));
}

/// Stream ids, none twice: any, the least and the greatest, and some that
/// differ in one bit.
pub fn stream_ids(chance: &mut Chance, count: usize) -> Vec<u64> {
    let base = chance.next();
    let mut ids = Vec::with_capacity(count);
    while ids.len() < count {
        let id = match chance.below(6) {
            0 => 0,
            1 => u64::MAX,
            2 => base ^ 1 << chance.below(64),
            3 => chance.below(64) as u64,
            _ => chance.next(),
        };
        if !ids.contains(&id) {
            ids.push(id);
        }
    }
    ids
}

/// A number of streams, up to 70.
pub fn stream_count(chance: &mut Chance) -> usize {
    match chance.below(4) {
        0 => chance.within(1, 4),
        1 => chance.pick(&[1, 1, 2, 16, 63, 64, 65, 70]),
        _ => chance.within(1, 70),
    }
}
