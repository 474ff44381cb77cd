//! Captures of a stream whose source packets are put together (request #110).

use crate::bare::bare_payload;
use crate::captures::Capture;
use crate::chance::Chance;
use crate::damage::{spoiled, CHECKS};
use crate::frames::{block_size, Frame, LONGEST_PAYLOAD};
use crate::limits;
use crate::noise::{noise, turn_bytes};
use crate::removals::put_refused;
use crate::senders::Sender;
use crate::times::arrival;

/// Numbers that a frame is refused with after the reader's own.
const OWN_CHECKS: [u8; 4] = [15, 50, 51, 52];

/// The greatest DBS of each FN with which a source packet has room, which is 192 bytes.
pub const GREATEST_DBS: [u8; 4] = [48, 24, 12, 6];

/// A stream id: often the least or the greatest.
fn stream_id(chance: &mut Chance) -> u64 {
    match chance.below(6) {
        0 => 0,
        1 => u64::MAX,
        2 => chance.below(64) as u64,
        _ => chance.next(),
    }
}

/// The id of another stream: often it differs in one bit.
fn another_id(chance: &mut Chance, id: u64) -> u64 {
    let other = if chance.flip() { stream_id(chance) } else { id };
    if other == id {
        id ^ 1 << chance.below(64)
    } else {
        other
    }
}

/// A capture being put together, the sender of the stream in question, and the sender of
/// another.
struct Stream {
    capture: Capture,
    sender: Sender,
    other: Sender,
    /// The last frame put in.
    last: Vec<u8>,
}

/// Gives the frame a DBS with which a source packet has no room, and a block or none.
fn widen(chance: &mut Chance, frame: &mut Frame) {
    let greatest = GREATEST_DBS[usize::from(frame.fraction)];
    let any = chance.within(usize::from(greatest) + 1, 255) as u8;
    frame.dbs = chance.pick(&[greatest + 1, greatest + 1, 0, 255, any]);
    let blocks = chance.below(2).min(LONGEST_PAYLOAD / block_size(frame.dbs));
    frame.padding.clear();
    frame.carry(chance.bytes(blocks * block_size(frame.dbs)));
}

/// Makes the frame one of tag 0: with its CIP header as a part of the payload, or with
/// another payload.
fn strip(chance: &mut Chance, frame: &mut Frame) {
    if chance.flip() {
        frame.tag = 0;
    } else {
        frame.padding.clear();
        frame.carry_bare(bare_payload(chance, frame, 40));
    }
}

/// The bytes of a frame that is refused with this number, if with no other.
pub fn refused(chance: &mut Chance, frame: &mut Frame, number: u8) -> Vec<u8> {
    match number {
        15 if chance.flip() => frame.stream_id = another_id(chance, frame.stream_id),
        50 => strip(chance, frame),
        51 => frame.sph = false,
        52 => widen(chance, frame),
        _ => return spoiled(chance, frame, number),
    }
    frame.bytes()
}

impl Stream {
    fn new(chance: &mut Chance, id: u64, size: usize) -> Stream {
        let other_id = another_id(chance, id);
        let [mut sender, other] = [id, other_id].map(|id| Sender::new(chance, id));
        sender.frame.sph = true;
        let mut stream = Stream { capture: Capture::new(size), sender, other, last: vec![] };
        stream.choose_fraction(chance);
        stream.choose_dbs(chance);
        stream
    }

    /// Blocks in a source packet.
    fn packet(&self) -> usize {
        1 << self.sender.frame.fraction
    }

    fn greatest_dbs(&self) -> u8 {
        GREATEST_DBS[usize::from(self.sender.frame.fraction)]
    }

    /// Takes up any FN; the source packet has room with DBS 6 or less.
    fn choose_fraction(&mut self, chance: &mut Chance) {
        self.sender.frame.fraction = chance.pick(&[0, 1, 1, 2, 2, 3, 3]);
        self.sender.frame.dbs = self.sender.frame.dbs.clamp(1, self.greatest_dbs());
    }

    /// Takes up any DBS with which the source packet has room.
    fn choose_dbs(&mut self, chance: &mut Chance) {
        let greatest = self.greatest_dbs();
        let any = chance.within(1, greatest.into()) as u8;
        self.sender.frame.dbs = chance.pick(&[1, 1, 2, 6, any, greatest]);
    }

    /// Takes up another FN, DBS or both. The block count mostly goes on.
    fn change_format(&mut self, chance: &mut Chance) {
        if chance.one_in(4) {
            self.sender.dbc = self.sender.dbc.wrapping_add(chance.within(1, 9) as u8);
        }
        match chance.below(3) {
            0 => self.choose_dbs(chance),
            1 => self.choose_fraction(chance),
            _ => {
                self.choose_fraction(chance);
                self.choose_dbs(chance);
            }
        }
    }

    /// A number of blocks, at most as many as a frame has room for: none, one, up to a
    /// source packet, or several.
    fn some_blocks(&self, chance: &mut Chance) -> usize {
        let packet = self.packet();
        let blocks = match chance.below(8) {
            0 => 0,
            1 | 2 => 1,
            3 | 4 => chance.within(1, packet),
            5 => packet,
            6 => chance.within(1, 2 * packet + 1),
            _ => chance.within(1, 6 * packet),
        };
        blocks.min(LONGEST_PAYLOAD / block_size(self.sender.frame.dbs))
    }

    /// The next frame. Some have more blocks behind the payload, as padding.
    fn next_frame(&mut self, chance: &mut Chance, blocks: usize) -> Frame {
        let mut frame = self.sender.send_exactly(chance, 0, blocks);
        if chance.one_in(12) {
            let padding = block_size(frame.dbs) * chance.within(1, self.packet());
            frame.pad(chance.bytes(padding));
        }
        frame
    }

    fn put(&mut self, chance: &mut Chance, bytes: Vec<u8>) {
        self.capture.frame(arrival(chance), &bytes);
        self.last = bytes;
    }

    /// Puts in the next frame.
    fn send(&mut self, chance: &mut Chance, blocks: usize) {
        let frame = self.next_frame(chance, blocks);
        self.put(chance, frame.bytes());
    }

    /// Puts in the next frame of the other stream, whose source packets are alike.
    fn send_other(&mut self, chance: &mut Chance) {
        let Frame { sph, fraction, dbs, .. } = self.sender.frame;
        let frame = &mut self.other.frame;
        (frame.sph, frame.fraction, frame.dbs) = (sph, fraction, dbs);
        let blocks = self.some_blocks(chance);
        let frame = self.other.send_exactly(chance, 0, blocks);
        self.capture.frame(arrival(chance), &frame.bytes());
    }

    /// Puts in what would be the next frame, but for these numbers that it is refused with,
    /// the last of them surely. Unless it is lost so, the sender sends it anew.
    fn send_refused(&mut self, chance: &mut Chance, numbers: &[u8], lost: bool) {
        let (sequence, dbc) = (self.sender.sequence, self.sender.dbc);
        let blocks = self.some_blocks(chance);
        let mut frame = self.next_frame(chance, blocks);
        let mut bytes = vec![];
        for &number in numbers {
            bytes = refused(chance, &mut frame, number);
        }
        self.capture.frame(arrival(chance), &bytes);
        if !lost {
            (self.sender.sequence, self.sender.dbc) = (sequence, dbc);
        }
    }

    /// Puts in a frame that is refused for one thing, or for several at once.
    fn send_any_refused(&mut self, chance: &mut Chance) {
        let mut numbers = vec![];
        // What changes the payload comes before what changes the length.
        for number in [52, 51, 50, 15] {
            if chance.one_in(3) {
                numbers.push(number);
            }
        }
        if numbers.is_empty() || chance.one_in(4) {
            numbers.push(chance.pick(&CHECKS));
        }
        let lost = chance.one_in(4);
        self.send_refused(chance, &numbers, lost);
    }

    /// Puts in a record that has no frame.
    fn put_other(&mut self, chance: &mut Chance) {
        let id = self.sender.frame.stream_id;
        match chance.below(5) {
            0 => limits::admit(chance, &mut self.capture, id, true),
            1 => self.capture.admit(chance.next()),
            2 => self.capture.remove(id),
            _ => put_refused(chance, &mut self.capture, id),
        }
    }

    /// Puts in a frame without blocks, which has any count.
    fn send_empty(&mut self, chance: &mut Chance) {
        let dbc = self.sender.dbc;
        if chance.flip() {
            self.sender.dbc = chance.byte();
        }
        self.send(chance, 0);
        self.sender.dbc = dbc;
    }

    /// Something that goes wrong, or that seems to.
    fn trouble(&mut self, chance: &mut Chance) {
        let sender = &mut self.sender;
        match chance.below(20) {
            // Lost frames, lost blocks and repeated ones.
            0 | 1 => {
                let blocks = self.some_blocks(chance);
                self.next_frame(chance, blocks);
            }
            2 => sender.dbc = sender.dbc.wrapping_add(chance.within(1, 9) as u8),
            3 => sender.dbc = sender.dbc.wrapping_sub(chance.within(1, 9) as u8),
            4 | 5 => self.put(chance, self.last.clone()),
            6..=8 => self.change_format(chance),
            9 => self.send_empty(chance),
            10..=13 => self.send_any_refused(chance),
            14 | 15 => self.put_other(chance),
            // Neither of these is a matter of source packets.
            16 => sender.sequence = chance.byte(),
            17 => (sender.frame.mr, sender.frame.fmt) = (chance.flip(), chance.byte() & 0x3F),
            // The count is about to wrap, or any.
            18 => sender.dbc = (chance.within(1, 12) as u8).wrapping_neg(),
            _ => sender.dbc = chance.byte(),
        }
    }
}

/// A stream with all that goes wrong, once in `calm` frames. Another is often beside it.
fn troubled(chance: &mut Chance, id: u64, size: usize, calm: usize) -> Capture {
    let mut stream = Stream::new(chance, id, size);
    let alone = chance.flip();
    while !stream.capture.full() {
        if !alone && chance.one_in(3) {
            stream.send_other(chance);
        }
        if chance.one_in(calm) {
            stream.trouble(chance);
        }
        let blocks = stream.some_blocks(chance);
        stream.send(chance, blocks);
    }
    stream.capture
}

/// The numbers below `count` in any order.
fn shuffled(chance: &mut Chance, count: usize) -> Vec<usize> {
    let mut numbers: Vec<usize> = (0..count).collect();
    for place in (1..count).rev() {
        numbers.swap(place, chance.below(place + 1));
    }
    numbers
}

/// A sender of 8 blocks of 6 quadlets, whose packets are split over frames in every way.
fn split_in_every_way(chance: &mut Chance, id: u64) -> Capture {
    let mut stream = Stream::new(chance, id, usize::MAX);
    (stream.sender.frame.fraction, stream.sender.frame.dbs) = (3, 6);
    stream.sender.dbc = chance.byte() & !7;
    let mut waiting = 0;
    for ends in shuffled(chance, 1 << 7) {
        for block in 0..8 {
            waiting += 1;
            // A frame may go on into the next packet.
            if if block < 7 { ends >> block & 1 == 1 } else { !chance.one_in(4) } {
                stream.send(chance, waiting);
                waiting = 0;
            }
        }
    }
    stream.send(chance, waiting);
    stream.capture
}

/// Frames of up to as many blocks as there is room for, so that counts wrap in them.
fn long_frames(chance: &mut Chance, id: u64) -> Capture {
    let size = chance.within(8_000, 30_000);
    let mut stream = Stream::new(chance, id, size);
    while !stream.capture.full() {
        stream.choose_fraction(chance);
        stream.sender.frame.dbs = chance.pick(&[1, 1, 2]);
        for _ in 0..chance.within(1, 4) {
            let room = LONGEST_PAYLOAD / block_size(stream.sender.frame.dbs);
            let blocks = chance.within(room / 2, room);
            stream.send(chance, blocks);
        }
    }
    stream.capture
}

/// For each FN, a source packet of the greatest size or a smaller one, and between its
/// blocks a frame of a wider one.
fn at_the_room(chance: &mut Chance, id: u64) -> Capture {
    let mut stream = Stream::new(chance, id, usize::MAX);
    for fraction in shuffled(chance, 4).repeat(3) {
        stream.sender.frame.fraction = fraction as u8;
        let greatest = stream.greatest_dbs();
        stream.sender.frame.dbs = chance.pick(&[greatest, greatest, greatest - 1]);
        stream.sender.dbc = chance.byte() & !7;
        let before = chance.below(stream.packet());
        stream.send(chance, before);
        let numbers: &[u8] = chance.pick(&[&[52], &[52, 51], &[52, 50], &[52, 15]]);
        stream.send_refused(chance, numbers, false);
        stream.send(chance, stream.packet() - before);
    }
    stream.capture
}

/// A source packet for each number that a frame is refused with; the frame comes between
/// its blocks.
fn across_refusals(chance: &mut Chance, id: u64) -> Capture {
    let mut stream = Stream::new(chance, id, usize::MAX);
    let numbers = [&CHECKS[..], &OWN_CHECKS].concat();
    for which in shuffled(chance, numbers.len()) {
        stream.sender.frame.fraction = chance.within(1, 3) as u8;
        stream.choose_dbs(chance);
        stream.sender.dbc = chance.byte() & !7;
        let before = chance.within(1, stream.packet() - 1);
        stream.send(chance, before);
        stream.send_refused(chance, &[numbers[which]], false);
        if chance.flip() {
            stream.put_other(chance);
        }
        stream.send(chance, stream.packet() - before);
    }
    stream.capture
}

/// A troubled capture that is cut, or has some bytes changed.
fn damaged(chance: &mut Chance, id: u64) -> Capture {
    let size = chance.within(1, 10_000);
    let mut capture = troubled(chance, id, size, 3);
    match chance.below(3) {
        0 => turn_bytes(chance, &mut capture),
        1 => capture.cut_last(chance),
        _ => {
            let kept = chance.below(capture.bytes.len());
            capture.bytes.truncate(kept);
        }
    }
    capture
}

/// The capture of this index, and the id of the stream in question.
pub fn capture(seed: u64, index: u64) -> (u64, Vec<u8>) {
    let chance = &mut Chance::new(seed, index);
    let id = stream_id(chance);
    if index == 0 {
        return (id, vec![]);
    }
    if index % 100 == 50 {
        let size = chance.within(300_000, 800_000);
        return (id, troubled(chance, id, size, 4).bytes);
    }
    let capture = match index % 12 {
        0 => noise(chance),
        1 => split_in_every_way(chance, id),
        2 => long_frames(chance, id),
        3 => at_the_room(chance, id),
        4 => across_refusals(chance, id),
        5 | 6 => damaged(chance, id),
        7 => {
            let size = chance.within(1_000, 20_000);
            troubled(chance, id, size, 10)
        }
        _ => {
            let size = chance.within(1_000, 20_000);
            troubled(chance, id, size, 2)
        }
    };
    (id, capture.bytes)
}
