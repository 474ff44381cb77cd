//! Captures of cameras beside tape decks: frames of tag 0 and of tag 1 (request #108).

use crate::captures::Capture;
use crate::chance::Chance;
use crate::damage::{spoil, spoiled, FIELD_CHECKS};
use crate::frames::{Frame, LONGEST_BARE_PAYLOAD};
use crate::limits;
use crate::senders::{stream_ids, Sender};
use crate::times::arrival;

/// Which tags a stream's frames have.
#[derive(Clone, Copy)]
enum Tags {
    Zero,
    One,
    /// Mostly the one that the frame before had.
    Runs,
    Any,
}

impl Tags {
    fn any(chance: &mut Chance) -> Tags {
        chance.pick(&[Tags::Zero, Tags::One, Tags::Runs, Tags::Any, Tags::Any])
    }
}

/// A stream.
struct Room {
    sender: Sender,
    tags: Tags,
    /// Whether the last frame had tag 0.
    bare: bool,
}

impl Room {
    fn new(chance: &mut Chance, id: u64, tags: Tags) -> Room {
        let mut sender = Sender::new(chance, id);
        if chance.one_in(6) {
            let frame = &mut sender.frame;
            (frame.fmt, frame.dbs, frame.fraction, frame.sph) = (0, 0, 0, false);
        }
        if chance.one_in(4) {
            sender.dbc = 0;
        }
        sender.most_blocks = sender.most_blocks.min(if sender.frame.dbs == 0 { 1 } else { 4 });
        Room { sender, tags, bare: chance.flip() }
    }

    fn id(&self) -> u64 {
        self.sender.frame.stream_id
    }

    /// The stream's next frame, as it arrives at `at`. Most are short, so that there is
    /// room for many.
    fn next_frame(&mut self, chance: &mut Chance, at: u64) -> Frame {
        self.bare = match self.tags {
            Tags::Zero => true,
            Tags::One => false,
            Tags::Runs => self.bare != chance.one_in(4),
            Tags::Any => chance.flip(),
        };
        if !self.bare {
            return self.sender.send_blocks(chance, at);
        }
        let most = if chance.one_in(6) { LONGEST_BARE_PAYLOAD } else { 64 };
        self.sender.send_bare(chance, at, most)
    }

    /// Puts in the stream's next frame.
    fn send(&mut self, chance: &mut Chance, capture: &mut Capture) {
        let at = arrival(chance);
        let frame = self.next_frame(chance, at);
        capture.frame(at, &frame.bytes());
    }

    /// Puts in a frame of the stream with one thing wrong or two, or with what would be
    /// wrong with tag 1. The sender goes on, or sends what it should have been anew.
    fn send_spoiled(&mut self, chance: &mut Chance, capture: &mut Capture, first: u8) {
        let (sequence, dbc) = (self.sender.sequence, self.sender.dbc);
        let at = arrival(chance);
        let mut frame = self.next_frame(chance, at);
        if chance.flip() {
            let second = chance.pick(FIELD_CHECKS);
            spoil(chance, &mut frame, second);
        }
        spoil(chance, &mut frame, first);
        capture.frame(at, &frame.bytes());
        if chance.flip() {
            (self.sender.sequence, self.sender.dbc) = (sequence, dbc);
        }
    }

    /// Puts in a frame of tag 2 or 3, which is sound with tag 1, or has one more thing wrong.
    fn send_other_tag(&mut self, chance: &mut Chance, capture: &mut Capture) {
        let at = arrival(chance);
        let mut frame = self.sender.send_blocks(chance, at);
        if chance.one_in(3) {
            let later = chance.pick(&[13, 14, 15, 16]);
            spoil(chance, &mut frame, later);
        } else if chance.flip() {
            let number = chance.pick(FIELD_CHECKS);
            spoil(chance, &mut frame, number);
        }
        spoil(chance, &mut frame, 12);
        let bytes = if chance.one_in(12) { spoiled(chance, &mut frame, 2) } else { frame.bytes() };
        capture.frame(at, &bytes);
    }

    /// Removes the stream, perhaps sends a frame, and admits the stream: again, which is
    /// refused, or for the first time. Its sender starts anew or goes on.
    fn admit_again(&mut self, chance: &mut Chance, capture: &mut Capture) {
        capture.remove(self.id());
        if chance.one_in(3) {
            self.send(chance, capture);
        }
        limits::admit(chance, capture, self.id(), true);
        if chance.flip() {
            self.sender.dbc = chance.pick(&[0, 0, 1, 255]);
        }
    }
}

/// What comes next: mostly a frame, and before it now and then something that is wrong, or
/// a new stream.
fn turn(chance: &mut Chance, capture: &mut Capture, rooms: &mut Vec<Room>) {
    if chance.one_in(20) {
        let (id, tags) = (chance.next(), Tags::any(chance));
        limits::admit(chance, capture, id, true);
        rooms.push(Room::new(chance, id, tags));
    }
    let which = chance.below(rooms.len());
    let room = &mut rooms[which];
    match chance.below(20) {
        0..=3 => room.sender.stray(chance),
        4 | 5 => room.admit_again(chance, capture),
        6 => {
            let number = chance.pick(FIELD_CHECKS);
            room.send_spoiled(chance, capture, number);
        }
        // What tag 1 would be refused for, and the stream's id.
        7 => {
            let number = chance.pick(&[13, 14, 15, 16]);
            room.send_spoiled(chance, capture, number);
        }
        8 | 9 => room.send_other_tag(chance, capture),
        // A lost frame.
        10 => {
            room.next_frame(chance, 0);
        }
        _ => {}
    }
    room.send(chance, capture);
}

/// Streams whose frames have either tag, and with all that goes wrong.
fn troubled(chance: &mut Chance) -> Capture {
    let mut capture = Capture::new(chance.within(4_000, 30_000));
    let count = chance.within(1, 5);
    let mut rooms: Vec<Room> = stream_ids(chance, count)
        .into_iter()
        .map(|id| {
            let tags = Tags::any(chance);
            Room::new(chance, id, tags)
        })
        .collect();
    for room in &rooms {
        if !chance.one_in(4) {
            limits::admit(chance, &mut capture, room.id(), true);
        }
    }
    while !capture.full() {
        turn(chance, &mut capture, &mut rooms);
    }
    capture
}

/// Streams with these tags whose frames take turns, with nothing wrong.
fn in_turn(chance: &mut Chance, tags: &[Tags]) -> Capture {
    let mut capture = Capture::new(chance.within(4_000, 30_000));
    let ids = stream_ids(chance, tags.len());
    let mut rooms: Vec<Room> =
        ids.into_iter().zip(tags).map(|(id, &tags)| Room::new(chance, id, tags)).collect();
    for room in &rooms {
        capture.admit(room.id());
    }
    while !capture.full() {
        for room in &mut rooms {
            room.send(chance, &mut capture);
        }
    }
    capture
}

/// Cameras and tape decks, often on one stream.
pub fn cameras(chance: &mut Chance) -> Capture {
    match chance.below(8) {
        0 => in_turn(chance, &[Tags::Any]),
        1 => in_turn(chance, &[Tags::Any, Tags::Runs]),
        2 => in_turn(chance, &[Tags::Zero, Tags::One]),
        3 => in_turn(chance, &[Tags::Zero]),
        _ => troubled(chance),
    }
}
