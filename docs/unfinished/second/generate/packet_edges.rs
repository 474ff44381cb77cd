//! The edges of each rule about whole source packets (request #110), in one capture. It is
//! the same at every run, so that it and the answers to it can be stored.

use crate::captures::Capture;
use crate::chance::Chance;
use crate::damage::{spoil, CHECKS};
use crate::frames::{block_size, Frame, LONGEST_PAYLOAD};
use crate::whole_packets::{refused, GREATEST_DBS};

/// The stream in question.
const ID: u64 = 0x0123_4567_89AB_CDEF;

/// A capture being put together, and the stream's next frame but for its payload.
struct Edges {
    capture: Capture,
    next: Frame,
    /// Quadlets filled so far; no two are the same.
    filled: u32,
    chance: Chance,
}

impl Edges {
    fn new() -> Edges {
        let next = Frame { stream_id: ID, sph: true, ..Frame::plain() };
        Edges { capture: Capture::new(usize::MAX), next, filled: 0, chance: Chance::new(110, 0) }
    }

    /// Takes up this FN and DBS.
    fn format(&mut self, fraction: u8, dbs: u8) -> &mut Edges {
        (self.next.fraction, self.next.dbs) = (fraction, dbs);
        self
    }

    /// Takes up this block count.
    fn at(&mut self, dbc: u8) -> &mut Edges {
        self.next.dbc = dbc;
        self
    }

    fn fill(&mut self, length: usize) -> Vec<u8> {
        let mut bytes = vec![];
        while bytes.len() < length {
            self.filled += 1;
            bytes.extend((0x4700_0000 + self.filled).to_be_bytes());
        }
        bytes
    }

    /// What would be the next frame with so many blocks.
    fn frame(&mut self, blocks: usize) -> Frame {
        let mut frame = self.next.clone();
        frame.timestamp = 0xA5A5_0000 + self.filled;
        frame.carry(self.fill(blocks * block_size(frame.dbs)));
        frame
    }

    /// Puts it in with something changed. The sender doesn't go on.
    fn put(&mut self, blocks: usize, change: impl FnOnce(&mut Frame)) {
        let mut frame = self.frame(blocks);
        change(&mut frame);
        self.capture.frame(0, &frame.bytes());
    }

    /// Puts in the next frame.
    fn send(&mut self, blocks: usize) -> &mut Edges {
        self.put(blocks, |_| {});
        self.next.sequence = self.next.sequence.wrapping_add(1);
        self.next.dbc = self.next.dbc.wrapping_add(blocks as u8);
        self
    }

    /// Puts in two blocks of a packet of four.
    fn half_a_packet(&mut self) -> &mut Edges {
        self.format(2, 1).at(8).send(2)
    }

    /// Puts in a frame that is refused with this number between the blocks of a packet.
    fn across_refused(&mut self, number: u8, of_another_stream: bool) {
        self.half_a_packet();
        let mut frame = self.frame(2);
        if of_another_stream {
            spoil(&mut self.chance, &mut frame, 15);
        }
        let bytes = refused(&mut self.chance, &mut frame, number);
        self.capture.frame(0, &bytes);
        self.send(2);
    }

    /// Puts in a frame without blocks between the blocks of a packet.
    fn across(&mut self, change: impl FnOnce(&mut Frame)) {
        self.half_a_packet().put(0, change);
        self.send(2);
    }
}

/// A capture that starts in the middle of a packet, and packets of each FN over as many
/// frames as it has blocks, and over fewer.
fn over_frames(edges: &mut Edges) {
    edges.format(2, 1).at(5).send(2).send(1).send(4);
    for (fraction, greatest) in (0..).zip(GREATEST_DBS) {
        edges.format(fraction, 1).at(16);
        let packet = 1 << fraction;
        for frames in 1..=packet {
            for _ in 1..frames {
                edges.send(1);
            }
            edges.send(packet - frames + 1);
        }
        edges.send(packet + 1).send(packet - 1).send(0).send(3 * packet);
        edges.format(fraction, greatest).send(packet);
        edges.at(7).send(2).at(1).send(1).at(2).send(1).at(4).send(1);
    }
    // MPEG-2 transport: 8 blocks of 6 quadlets.
    edges.format(3, 6).at(240).send(8).send(3).send(5).send(4).send(16).send(4);
}

/// Numbers that a frame is refused with, of this stream and of another, between the blocks
/// of a packet.
fn refusals(edges: &mut Edges) {
    for number in CHECKS {
        edges.across_refused(number, false);
        edges.across_refused(number, true);
    }
    for bit in [0, 31, 32, 63] {
        edges.half_a_packet().put(2, |frame| frame.stream_id ^= 1 << bit);
        edges.send(2);
    }
    for id in [0, u64::MAX, ID.swap_bytes()] {
        edges.across(|frame| frame.stream_id = id);
    }
    // 15 before the others, and 51 before 52.
    edges.across(|frame| (frame.stream_id, frame.tag) = (7, 0));
    edges.across(|frame| (frame.stream_id, frame.sph) = (7, false));
    edges.across(|frame| (frame.stream_id, frame.dbs) = (7, 13));
    edges.across(|frame| (frame.sph, frame.dbs) = (false, 13));
    edges.across(|frame| (frame.sph, frame.dbs) = (false, 0));
    edges.half_a_packet().put(2, |frame| frame.sph = false);
    edges.send(2);
    // Tag 0, with what would be a CIP header and without.
    edges.half_a_packet().put(2, |frame| frame.tag = 0);
    edges.put(2, |frame| (frame.tag, frame.sph) = (0, false));
    edges.put(0, |frame| frame.carry_bare(vec![]));
    edges.send(2);
}

/// Packets of 192 bytes, and between their blocks frames of packets that are longer, with
/// blocks and without.
fn room(edges: &mut Edges) {
    for (fraction, greatest) in (0..).zip(GREATEST_DBS) {
        let packet = 1 << fraction;
        edges.format(fraction, greatest).at(32).send(packet / 2);
        for dbs in [greatest + 1, greatest + 2, 0] {
            for blocks in [0, 1] {
                let payload = edges.fill(blocks * block_size(dbs));
                edges.put(0, |frame| {
                    frame.dbs = dbs;
                    frame.carry(payload);
                });
            }
        }
        edges.send(packet - packet / 2);
    }
    edges.format(0, 48).at(0).send(LONGEST_PAYLOAD / 192);
}

/// Packets that are dropped by each thing that a block can differ in: FN, DBS and count. Some
/// of those blocks are starts.
fn drops(edges: &mut Edges) {
    for (fraction, dbs, dbc) in [
        (2, 1, 12),
        (2, 1, 11),
        (2, 1, 9),
        (2, 1, 8),
        (2, 1, 14),
        (2, 1, 6),
        (2, 2, 10),
        (1, 1, 10),
        (0, 1, 10),
        (3, 1, 10),
        (2, 2, 12),
        (2, 2, 11),
        (1, 1, 12),
        (3, 1, 11),
        (1, 2, 10),
        (3, 2, 10),
        (1, 2, 12),
        (3, 2, 11),
    ] {
        edges.half_a_packet().format(fraction, dbs).at(dbc).send(1);
        // What would have gone on comes after all.
        edges.format(2, 1).at(11).send(1);
        edges.half_a_packet().format(fraction, dbs).at(dbc).send(8);
    }
    // One block short, and the last block lost.
    edges.half_a_packet().send(1).at(12).send(4);
    edges.format(1, 24).at(0).send(1).at(2).send(2);
}

/// Packets and parts of them that come again.
fn repeats(edges: &mut Edges) {
    for (fraction, dbs) in [(0, 3), (1, 2), (3, 6)] {
        edges.format(fraction, dbs).at(64);
        for _ in 0..2 {
            // The same bytes.
            edges.filled = 0x1000;
            edges.at(64).send(1 << fraction);
        }
    }
    edges.filled = 0x2000;
    edges.half_a_packet().at(8).send(2).at(9).send(2).at(10).send(2);
}

/// Counts that wrap, in frames of up to the most blocks.
fn wraps(edges: &mut Edges) {
    edges.format(3, 1).at(250).send(8).send(6).at(248).send(8).send(8);
    edges.format(0, 1).at(254).send(2).send(1).at(255).send(2);
    edges.format(1, 2).at(255).send(2).send(1).at(254).send(1).send(1).send(2);
    edges.format(3, 1).at(250).send(LONGEST_PAYLOAD / 4).send(7);
}

/// What isn't a matter of source packets, between the blocks of a packet.
fn no_matter(edges: &mut Edges) {
    edges.across(|_| {});
    edges.across(|frame| frame.dbc = 99);
    edges.across(|frame| (frame.dbs, frame.fraction, frame.dbc) = (3, 1, 12));
    for fraction in 0..=3 {
        edges.format(fraction, 1).at(1).send(0);
    }
    // Blocks behind the payload, and bytes.
    edges.format(2, 1).at(8).put(2, |frame| frame.padding = vec![0x5A; 8]);
    edges.at(10).put(2, |frame| frame.padding = vec![0x5A; 3]);
    edges.next.sequence = 200;
    edges.half_a_packet().next.sequence = 7;
    edges.send(2).half_a_packet().next.mr = true;
    edges.send(2).half_a_packet().next.fmt = 32;
    edges.send(2);
    // Records without a frame.
    edges.half_a_packet();
    edges.capture.admit(ID);
    edges.capture.admit_limited(ID, 5);
    edges.capture.remove(ID);
    for counted in [&[][..], &[1], &[1, 0], &[1, 0, 0, 0, 0, 0, 0, 0, 0], &[2, 0, 7], &[3, 0, 7]] {
        edges.capture.record(counted);
    }
    edges.capture.kind(4, &[0; 12]);
    edges.capture.kind(257, &[0; 60]);
    edges.capture.kind(1, &[0; 8]);
    edges.send(2);
}

/// The id, and then the capture. Its last packet is unfinished, and its last record is cut.
pub fn packet_edges() -> Vec<u8> {
    let edges = &mut Edges::new();
    for scene in [over_frames, refusals, room, drops, repeats, wraps, no_matter] {
        scene(edges);
    }
    edges.half_a_packet().send(2);
    edges.capture.keep_of_last(60);
    edges.capture.bytes.splice(0..0, ID.to_be_bytes());
    std::mem::take(&mut edges.capture.bytes)
}
