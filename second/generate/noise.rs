//! Captures of no meaning, and sound ones with bits or bytes changed.

use crate::captures::{Capture, SMALL};
use crate::chance::Chance;
use crate::senders::{stream_ids, Sender};
use crate::times::arrival;
use crate::traffic::traffic;

/// Bytes of no meaning.
pub fn noise(chance: &mut Chance) -> Capture {
    let mut capture = Capture::new(SMALL);
    if chance.flip() {
        // Records with low lengths and kinds, so that they don't end at once.
        for _ in 0..chance.within(1, 100) {
            let length = chance.within(0, 90);
            let mut counted = chance.bytes(length);
            if length >= 2 && !chance.one_in(4) {
                counted[0] = chance.below(7) as u8;
                counted[1] = 0;
            }
            capture.record(&counted);
        }
    } else {
        let length = chance.pick(&[1, 2, 3, 4, 10, 100, 1000, 5000]);
        capture.bytes = chance.bytes(length);
    }
    capture
}

/// Sound frames with some bits turned over in their headers.
pub fn turned_bits(chance: &mut Chance) -> Capture {
    let mut capture = Capture::new(SMALL);
    let ids = stream_ids(chance, 3);
    let mut senders: Vec<Sender> = ids.iter().map(|&id| Sender::new(chance, id)).collect();
    for &id in &ids {
        capture.admit(id);
    }
    for _ in 0..150 {
        if capture.full() {
            break;
        }
        let at = arrival(chance);
        let which = chance.below(ids.len());
        let mut bytes = senders[which].send(chance, at).bytes();
        for _ in 0..chance.below(4) {
            let place = chance.below(bytes.len().min(54));
            bytes[place] ^= 1 << chance.below(8);
        }
        capture.frame(at, &bytes);
    }
    capture
}

/// Traffic with some bytes of the capture changed, record lengths included.
pub fn turned_bytes(chance: &mut Chance) -> Capture {
    let mut capture = traffic(chance, 20_000, 60);
    for _ in 0..chance.within(1, 6) {
        let place = chance.below(capture.bytes.len());
        capture.bytes[place] = match chance.below(3) {
            0 => chance.byte(),
            1 => capture.bytes[place] ^ 1 << chance.below(8),
            _ => chance.pick(&[0, 1, 127, 128, 255]),
        };
    }
    capture
}
