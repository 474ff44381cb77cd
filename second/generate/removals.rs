//! Captures of removal records, which are no longer obeyed (request #109).

use crate::captures::Capture;
use crate::chance::Chance;
use crate::damage::{spoil, FIELD_CHECKS};
use crate::frames::block_size;
use crate::limits;
use crate::senders::{stream_ids, Sender};
use crate::times::arrival;

/// Kinds that are unknown, with 3 in one of their bytes.
const OTHER_KINDS: [u16; 7] = [259, 259, 768, 768, 515, 771, 65_283];

/// Puts in a removal whose length is wrong. After the kind comes the stream's id, as far
/// as there is room.
fn remove_by_length(chance: &mut Chance, capture: &mut Capture, id: u64) {
    let length = match chance.below(4) {
        0 | 1 => chance.within(2, 9),
        2 => chance.within(11, 15),
        _ => chance.pick(&[11, 14, 14, 16, 18, 20, 100]),
    };
    let mut body = id.to_be_bytes().to_vec();
    body.resize(length - 2, 0);
    capture.kind(3, &body);
}

/// Puts in a removal of the stream or something like it, or several.
fn remove(chance: &mut Chance, capture: &mut Capture, id: u64) {
    match chance.below(10) {
        0..=2 => remove_by_length(chance, capture, id),
        3 => capture.kind(chance.pick(&OTHER_KINDS), &id.to_be_bytes()),
        4 => {
            capture.remove(id);
            capture.remove(id);
        }
        // A new stream would take the place, or the stream itself.
        5 => {
            capture.remove(id);
            let other = chance.next();
            limits::admit(chance, capture, other, true);
        }
        6 | 7 => {
            capture.remove(id);
            limits::admit(chance, capture, id, true);
        }
        _ => capture.remove(id),
    }
}

/// Puts in another record that is refused for its length or its kind, or has one byte for
/// a frame. After the kind come the stream's id and more, as far as there is room.
fn put_refused(chance: &mut Chance, capture: &mut Capture, id: u64) {
    let kind: u16 = chance.pick(&[0, 1, 1, 2, 2, 4, 5, 5, 257]);
    let mut counted = [&kind.to_le_bytes()[..], &id.to_be_bytes(), &[0; 2]].concat();
    counted.truncate(chance.pick(&[0, 0, 1, 1, 2, 9, 11, 12]));
    capture.record(&counted);
}

/// Puts in the next frame of a sender. It goes on, or strays.
fn send(chance: &mut Chance, capture: &mut Capture, sender: &mut Sender) {
    if chance.flip() {
        sender.stray(chance);
    }
    // Frames are short, so that there is room for many.
    let most = if block_size(sender.frame.dbs) <= 64 { 1 } else { 0 };
    sender.most_blocks = sender.most_blocks.min(most);
    let at = arrival(chance);
    let mut frame = sender.send(chance, at);
    if chance.one_in(12) {
        let number = chance.pick(FIELD_CHECKS);
        spoil(chance, &mut frame, number);
    }
    capture.frame(at, &frame.bytes());
}

/// What comes next: mostly a removal, or something else that changes nothing, and then a
/// frame.
fn turn(chance: &mut Chance, capture: &mut Capture, senders: &mut [Sender]) {
    let which = chance.below(senders.len());
    let sender = &mut senders[which];
    let id = sender.frame.stream_id;
    match chance.below(8) {
        0 => limits::admit(chance, capture, id, true),
        1 => {
            let stranger = chance.next();
            remove(chance, capture, stranger);
        }
        2 => put_refused(chance, capture, id),
        3 => {}
        _ => remove(chance, capture, id),
    }
    send(chance, capture, sender);
}

/// Puts in what a capture ends with: mostly a removal of the stream, whole or cut, or
/// before a record that is cut.
fn end(chance: &mut Chance, capture: &mut Capture, sender: &mut Sender) {
    let id = sender.frame.stream_id;
    match chance.below(9) {
        0 => capture.remove(id),
        1 => {
            capture.remove(id);
            send(chance, capture, sender);
            capture.cut_last(chance);
        }
        2 | 3 => {
            remove_by_length(chance, capture, id);
            capture.cut_last(chance);
        }
        4..=7 => {
            capture.remove(id);
            capture.keep_of_last(chance.pick(&[1, 3, 4, 4, 4, 5, 8, 10, 11, 11, 11]));
        }
        _ => {}
    }
}

/// A number of streams; the table is often full, or too small for all.
fn stream_count(chance: &mut Chance) -> usize {
    match chance.below(3) {
        0 => chance.within(1, 3),
        1 => chance.within(2, 20),
        _ => chance.within(64, 70),
    }
}

/// Streams that are removed before they are admitted, before their frames and between
/// them, and are admitted again after that.
pub fn removals(chance: &mut Chance) -> Capture {
    let count = stream_count(chance);
    // Admissions take up to 16 bytes each.
    let mut capture = Capture::new(16 * count + chance.within(500, 12_000));
    let mut senders: Vec<Sender> =
        stream_ids(chance, count).into_iter().map(|id| Sender::new(chance, id)).collect();
    for _ in 0..chance.below(4) {
        let which = chance.below(count);
        remove(chance, &mut capture, senders[which].frame.stream_id);
    }
    let all = chance.flip();
    for sender in &senders {
        if all || !chance.one_in(6) {
            limits::admit(chance, &mut capture, sender.frame.stream_id, true);
        }
    }
    while !capture.full() {
        turn(chance, &mut capture, &mut senders);
    }
    let last = chance.below(count);
    end(chance, &mut capture, &mut senders[last]);
    capture
}
