//! Frames that a check refuses.

use crate::chance::Chance;
use crate::frames::{block_size, Frame};

/// The checks of a frame itself, in their order.
pub const CHECKS: [u8; 15] = [1, 2, 3, 4, 5, 6, 7, 8, 9, 10, 11, 12, 13, 16, 14];

/// Those of what it says, after those of its length.
pub const FIELD_CHECKS: &[u8] = CHECKS.split_at(2).1;

/// Makes the frame one that check `number` (3 to 16) refuses, if no other does; for 15,
/// if no stream is admitted whose id differs from the frame's in one bit; for 13, 16 and
/// 14, if it has a CIP header.
pub fn spoil(chance: &mut Chance, frame: &mut Frame, number: u8) {
    match number {
        3 => frame.tpid = chance.pick(&[0x8101, 0x8000, 0x0100, 0x9100, 0x88A8, 0x0081, 0]),
        4 => frame.cfi = true,
        5 => frame.ethertype = chance.pick(&[0x22F1, 0x22E0, 0x22F8, 0x23F0, 0xF022, 0x0800]),
        6 => frame.cd = true,
        7 => frame.subtype = chance.pick(&[1, 2, 4, 8, 16, 32, 64, 0x7E, 0x7F]),
        8 => frame.version = chance.pick(&[1, 2, 4, 7]),
        9 => frame.sv = false,
        10 => match chance.below(4) {
            0 => frame.destination = [0; 6],
            1 => frame.destination[0] &= !1,
            2 => frame.source[0] |= 1,
            _ => std::mem::swap(&mut frame.destination, &mut frame.source),
        },
        11 => {
            let over = chance.pick(&[1, 1, 1, 2, 4, 256, 4096]);
            frame.stream_data_length =
                if chance.one_in(8) { u16::MAX } else { frame.room() + over };
        }
        12 => frame.tag = chance.pick(&[2, 3]),
        13 => frame.stream_data_length = chance.pick(&[0, 1, 4, 6, 7, 7]),
        15 => frame.stream_id ^= 1 << chance.below(64),
        16 => frame.qpc = chance.within(1, 7) as u8,
        _ => {
            if frame.payload.len() < 4 {
                frame.carry(vec![0; block_size(frame.dbs)]);
            }
            // One to three bytes missing, or a quadlet of a longer block.
            let missing = if frame.dbs != 1 && chance.flip() { 4 } else { chance.within(1, 3) };
            frame.stream_data_length = frame.data_length() - missing as u16;
            if chance.flip() {
                frame.payload.truncate(frame.payload.len() - missing);
            }
        }
    }
}

/// The bytes of a frame that check `number` refuses, if no other does.
pub fn spoiled(chance: &mut Chance, frame: &mut Frame, number: u8) -> Vec<u8> {
    match number {
        1 => {
            let mut bytes = frame.bytes();
            bytes.truncate(chance.pick(&[41, 41, 41, 40, 18, 1, 0]));
            bytes
        }
        2 => {
            let mut bytes = frame.bytes();
            bytes.resize(chance.pick(&[1519, 1519, 1519, 1520, 1522, 2048, 4096]), 0xA5);
            bytes
        }
        _ => {
            spoil(chance, frame, number);
            frame.bytes()
        }
    }
}
