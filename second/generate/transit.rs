//! Captures at the edges of transit limits (request #107).

use crate::captures::Capture;
use crate::chance::Chance;
use crate::damage::{spoil, FIELD_CHECKS};
use crate::frames::{block_size, Frame};
use crate::limits::{allowed, any, around, too_large, LARGEST_LIMIT};
use crate::senders::stream_ids;
use crate::times::{arrival_for, stamp};

/// A stream, and the limit that it is admitted with.
struct Limited {
    /// The stream's last frame.
    frame: Frame,
    limit: u32,
}

impl Limited {
    fn new(chance: &mut Chance, id: u64) -> Limited {
        Limited { frame: Frame::sound(chance, id), limit: LARGEST_LIMIT }
    }

    fn id(&self) -> u64 {
        self.frame.stream_id
    }

    /// Admits the stream by kind 2, or by kind 5 with a limit.
    fn admit(&mut self, chance: &mut Chance, capture: &mut Capture) {
        if chance.one_in(4) {
            self.limit = LARGEST_LIMIT;
            capture.admit(self.id());
        } else {
            self.limit = allowed(chance);
            capture.admit_limited(self.id(), self.limit);
        }
    }

    /// The stream's next frame and when it arrives. Its stamp is the timestamp or in the
    /// payload, and its offset is around the limit.
    fn next_frame(&mut self, chance: &mut Chance) -> (u64, Frame) {
        let offset = around(chance, self.limit);
        let at = arrival_for(chance, offset);
        let frame = &mut self.frame;
        frame.sequence = frame.sequence.wrapping_add(1);
        frame.dbc = frame.dbc.wrapping_add(frame.blocks() as u8);
        frame.choose_bare(chance.one_in(8));
        frame.tv = !chance.one_in(12);
        frame.sph = chance.flip();
        frame.fraction = chance.below(4) as u8;
        frame.dbs = chance.pick(&[1, 1, 1, 2]);
        let blocks = if frame.sph {
            frame.blocks_before_start() + chance.within(1, 2)
        } else {
            chance.below(2)
        };
        frame.carry(chance.bytes(blocks * block_size(frame.dbs)));
        // With SPH 1 the timestamp is another stamp, which isn't read.
        frame.timestamp = chance.next() as u32;
        frame.stamp(stamp(at, offset));
        (at, frame.clone())
    }

    /// Puts in the stream's next frame.
    fn send(&mut self, chance: &mut Chance, capture: &mut Capture) {
        let (at, frame) = self.next_frame(chance);
        capture.frame(at, &frame.bytes());
    }

    /// Puts in a frame of the stream that is refused.
    fn send_refused(&mut self, chance: &mut Chance, capture: &mut Capture) {
        let (at, mut frame) = self.next_frame(chance);
        let number = chance.pick(FIELD_CHECKS);
        spoil(chance, &mut frame, number);
        capture.frame(at, &frame.bytes());
    }

    /// Puts in an admission of the stream with any limit, or without one, that is
    /// refused if the stream is admitted already.
    fn admit_twice(&mut self, chance: &mut Chance, capture: &mut Capture) {
        if chance.one_in(4) {
            capture.admit(self.id());
        } else {
            capture.admit_limited(self.id(), any(chance));
        }
    }

    /// Removes the stream and admits it again, neither of which is obeyed.
    fn admit_again(&mut self, chance: &mut Chance, capture: &mut Capture) {
        capture.remove(self.id());
        self.admit_twice(chance, capture);
    }
}

/// Removes two streams and admits them again, as if at each other's place. Their frames
/// show that each has its limit still.
fn change_places(chance: &mut Chance, capture: &mut Capture, streams: &mut [Limited]) {
    let [first, second] = [(); 2].map(|()| chance.below(streams.len()));
    capture.remove(streams[first].id());
    capture.remove(streams[second].id());
    for which in [first.max(second), first.min(second)] {
        streams[which].admit_twice(chance, capture);
    }
    for which in [first, second] {
        streams[which].send(chance, capture);
    }
}

/// Puts in admissions of a stream that isn't admitted: first with a limit that is too
/// large, then, unless the table is full, with one that isn't. The stream is one of
/// `streams` from then on.
fn admit_stranger(chance: &mut Chance, capture: &mut Capture, streams: &mut Vec<Limited>) {
    let id = chance.next();
    let mut stranger = Limited::new(chance, id);
    capture.admit_limited(id, too_large(chance));
    stranger.send(chance, capture);
    if streams.len() < 64 {
        stranger.admit(chance, capture);
        stranger.send(chance, capture);
        streams.push(stranger);
    }
}

/// Puts in a record of kind 5 whose length is wrong, or one of kind 4, which is unknown.
/// After the kind come the stream's id and a limit, as far as there is room.
fn wrong_record(chance: &mut Chance, capture: &mut Capture, id: u64) {
    let (kind, length) = if chance.one_in(4) {
        (4, chance.pick(&[2, 10, 10, 14, 14]))
    } else {
        (5, chance.pick(&[2, 3, 6, 9, 10, 10, 11, 12, 13, 13, 15, 15, 16, 18]))
    };
    let mut body = [&id.to_be_bytes()[..], &any(chance).to_le_bytes()].concat();
    body.resize(length - 2, 0);
    capture.kind(kind, &body);
}

/// What comes next. A frame shows which limit its stream has; often it is one of the last
/// four.
fn turn(chance: &mut Chance, capture: &mut Capture, streams: &mut Vec<Limited>) {
    let some = if chance.flip() { streams.len() } else { streams.len().min(4) };
    let which = streams.len() - 1 - chance.below(some);
    let stream = &mut streams[which];
    match chance.below(16) {
        0 => stream.admit_twice(chance, capture),
        1 | 2 => stream.admit_again(chance, capture),
        3 => return change_places(chance, capture, streams),
        4 | 5 => return admit_stranger(chance, capture, streams),
        6 => {
            let id = if chance.flip() { stream.id() } else { chance.next() };
            wrong_record(chance, capture, id);
        }
        7 | 8 => stream.send_refused(chance, capture),
        _ => {}
    }
    stream.send(chance, capture);
}

/// A number of streams; the table is often full, or too small for all.
fn stream_count(chance: &mut Chance) -> usize {
    match chance.below(4) {
        0 => 1,
        1 => chance.within(2, 6),
        2 => chance.within(7, 63),
        _ => chance.within(64, 66),
    }
}

/// Streams with limits of their own, whose frames take turns with offsets around them,
/// and with all that gives a limit, or must not.
pub fn transit_limits(chance: &mut Chance) -> Capture {
    let mut capture = Capture::new(chance.within(4_000, 40_000));
    let count = stream_count(chance);
    let ids = stream_ids(chance, count);
    let mut streams: Vec<Limited> = ids.iter().map(|&id| Limited::new(chance, id)).collect();
    for stream in &mut streams {
        stream.admit(chance, &mut capture);
    }
    while !capture.full() {
        turn(chance, &mut capture, &mut streams);
    }
    capture
}
