//! Captures of senders that take turns, whole, cut or long.

use crate::captures::{Capture, SMALL};
use crate::chance::Chance;
use crate::damage::{spoiled, CHECKS};
use crate::frames::Frame;
use crate::limits::{self, LARGEST_LIMIT};
use crate::senders::{stream_count, stream_ids, Sender};
use crate::times::arrival;

/// Puts a whole frame of a sender in, now and then lost, repeated or damaged.
fn send_with_trouble(chance: &mut Chance, capture: &mut Capture, sender: &mut Sender, at: u64) {
    match chance.below(24) {
        // Lost frames: the sender moves on, nothing is put in.
        0 => {
            for _ in 0..chance.pick(&[1, 1, 2, 3, 255, 256, 257]) {
                sender.send(chance, at);
            }
        }
        1..=4 => sender.stray(chance),
        // A repeated frame.
        5 => {
            let frame = sender.send(chance, at).bytes();
            capture.frame(at, &frame);
            return capture.frame(at.wrapping_add(1), &frame);
        }
        // A damaged frame, after which the sender moves on or sends it anew.
        6 | 7 => {
            let (sequence, dbc) = (sender.sequence, sender.dbc);
            let mut frame = sender.send(chance, at);
            let number = chance.pick(&CHECKS);
            let bytes = spoiled(chance, &mut frame, number);
            capture.frame(at, &bytes);
            if chance.flip() {
                (sender.sequence, sender.dbc) = (sequence, dbc);
            }
        }
        // A frame that arrives out of its turn.
        8 => {
            let first = sender.send(chance, at).bytes();
            let second = sender.send(chance, at).bytes();
            capture.frame(at, &second);
            return capture.frame(at, &first);
        }
        _ => {}
    }
    let frame = sender.send(chance, at);
    capture.frame(at, &frame.bytes());
}

/// Puts in a record of the greatest length, or nearly.
fn longest_record(chance: &mut Chance, capture: &mut Capture) {
    let kind = chance.pick(&[1, 1, 2, 3, 4, 5]);
    let body = vec![0x5A; 65_533 - chance.below(3)];
    capture.kind(kind, &body);
}

/// Senders whose frames interleave, with all that goes wrong under way. In every second
/// capture there are transit limits too.
pub fn traffic(chance: &mut Chance, size: usize, records: usize) -> Capture {
    let mut capture = Capture::new(size);
    let limited = chance.flip();
    let count = stream_count(chance);
    let ids = stream_ids(chance, count);
    let mut senders: Vec<Sender> = ids.iter().map(|&id| Sender::new(chance, id)).collect();
    let busy = if chance.flip() { count } else { count.min(3) };
    for &id in &ids {
        if !chance.one_in(6) {
            limits::admit(chance, &mut capture, id, limited);
        }
    }
    let mut at = arrival(chance);
    for _ in 0..records {
        if capture.full() {
            break;
        }
        at = match chance.below(30) {
            0 => arrival(chance),
            1 => at.wrapping_sub(chance.below(1_000_000) as u64),
            _ => at.wrapping_add(chance.below(250_000) as u64),
        };
        match chance.below(40) {
            _ if size > SMALL && chance.one_in(100) => longest_record(chance, &mut capture),
            0 => {
                let id = chance.pick(&ids);
                limits::admit(chance, &mut capture, id, limited);
            }
            1 => capture.remove(chance.pick(&ids)),
            2 => {
                let id = chance.pick(&ids);
                capture.remove(id);
                limits::admit(chance, &mut capture, id, limited);
            }
            _ => {
                let which = chance.below(busy);
                send_with_trouble(chance, &mut capture, &mut senders[which], at);
            }
        }
    }
    capture
}

/// A capture that ends inside its last record, at every kind of place.
pub fn cut(chance: &mut Chance) -> Capture {
    let mut capture = traffic(chance, 5_000, 12);
    if chance.one_in(3) {
        capture.admit(1);
        capture.remove(1);
    }
    match chance.below(10) {
        0 => capture.admit(1),
        1 => capture.remove(1),
        2 => capture.record(&[]),
        3 => capture.record(&[2]),
        4 => capture.kind(9, &[0; 30]),
        5 => capture.kind(1, &vec![0; 65_533]),
        6 => capture.admit_limited(1, LARGEST_LIMIT),
        7 => capture.kind(3, &[1; 12]),
        _ => {
            let frame = Frame::sound(chance, 1);
            capture.frame(0, &frame.bytes());
        }
    }
    capture.cut_last(chance);
    capture
}

/// A long capture, with longest records among the others.
pub fn long(chance: &mut Chance) -> Capture {
    let size = chance.within(300_000, 3_000_000);
    let mut capture = traffic(chance, size, usize::MAX);
    if chance.flip() {
        let cut = chance.within(1, 1000);
        capture.bytes.truncate(capture.bytes.len() - cut);
    }
    capture
}
