//! One stream's source packets, put together block by block (request #110).

use crate::cip::Cip;
use crate::frame::{parse_frame, Frame, Tag};
use crate::refusal::Refusal;

/// Room for the source packet being put together, in bytes.
const ROOM: u32 = 192;

/// A source packet that lacks at least one block.
#[derive(Debug, PartialEq, Eq)]
struct Unfinished {
    dbs: u8,
    fraction: u8,
    /// The count that the next block has to have.
    expected: u8,
    bytes: Vec<u8>,
}

/// The source packet being put together, if there is one, and what went wrong so far.
#[derive(Debug, PartialEq, Eq)]
pub struct Assembly {
    /// The stream whose frames are taken in, admitted or not.
    id: u64,
    /// Nothing while waiting for a block that opens a source packet.
    unfinished: Option<Unfinished>,
    /// Source packets dropped, and blocks passed over while waiting. Both stay at the
    /// largest number once there.
    pub dropped: u32,
    pub passed_over: u32,
}

/// A whole source packet.
#[derive(Debug, PartialEq, Eq)]
pub struct Packet {
    pub bytes: Vec<u8>,
    /// The block of the frame to go on from: the one after the packet's last.
    pub next: usize,
}

impl Packet {
    /// The packet's stamp: its own first four bytes.
    pub fn stamp(&self) -> u32 {
        let stamp = self.bytes.first_chunk().expect("a block has a quadlet");
        u32::from_be_bytes(*stamp)
    }
}

/// Bytes in a source packet, which is 2^FN blocks.
fn packet_size(cip: &Cip) -> u32 {
    cip.block_size() << cip.fraction
}

impl Unfinished {
    /// A source packet that opens with the block of this count, which is yet to be put in.
    fn open(cip: &Cip, count: u8) -> Unfinished {
        Unfinished { dbs: cip.dbs, fraction: cip.fraction, expected: count, bytes: vec![] }
    }

    /// Whether the block of this count goes on with the packet.
    fn goes_on(&self, cip: &Cip, count: u8) -> bool {
        (self.dbs, self.fraction, self.expected) == (cip.dbs, cip.fraction, count)
    }
}

impl Assembly {
    /// An empty assembly of a stream's source packets.
    pub fn new(id: u64) -> Assembly {
        Assembly { id, unfinished: None, dropped: 0, passed_over: 0 }
    }

    /// Bytes of the packet being put together, 0 while waiting.
    pub fn unfinished_bytes(&self) -> usize {
        self.unfinished.as_ref().map_or(0, |packet| packet.bytes.len())
    }

    /// Goes through a frame to its end, and answers the packets that become whole. A
    /// refused frame leaves the assembly as it stood.
    pub fn take_in(&mut self, frame: &[u8]) -> Result<Vec<Packet>, Refusal> {
        let frame = self.accept(frame)?;
        let mut packets = vec![];
        for (place, (count, block)) in frame.cip.counted_blocks(frame.payload).enumerate() {
            if let Some(bytes) = self.step(&frame.cip, count, block) {
                packets.push(Packet { bytes, next: place + 1 });
            }
        }
        Ok(packets)
    }

    /// Reads a frame, or answers the first of the reader's own numbers and of 15 (the frame
    /// is another stream's), 50, 51 and 52, in this order, that applies. 52 goes by the
    /// header, with blocks or without.
    fn accept<'a>(&self, frame: &'a [u8]) -> Result<Frame<'a>, Refusal> {
        let frame = parse_frame(frame)?;
        if frame.stream_id != self.id {
            return Err(Refusal::StreamNotAdmitted);
        }
        if frame.tag == Tag::NoCip {
            return Err(Refusal::NoCipHeader);
        }
        if !frame.cip.sph {
            return Err(Refusal::NoSourcePacketHeader);
        }
        if packet_size(&frame.cip) > ROOM {
            return Err(Refusal::PacketOverRoom);
        }
        Ok(frame)
    }

    /// Takes in the next block, and answers the bytes of the packet that it makes whole. A
    /// block that doesn't go on with the unfinished packet drops it, and is then looked at
    /// as while waiting: it opens a packet or is passed over.
    fn step(&mut self, cip: &Cip, count: u8, block: &[u8]) -> Option<Vec<u8>> {
        let going_on = match self.unfinished.take() {
            Some(packet) if packet.goes_on(cip, count) => Some(packet),
            Some(_) => {
                self.dropped = self.dropped.saturating_add(1);
                None
            }
            None => None,
        };
        let opened = || cip.opens_source_packet(count).then(|| Unfinished::open(cip, count));
        let Some(mut packet) = going_on.or_else(opened) else {
            self.passed_over = self.passed_over.saturating_add(1);
            return None;
        };
        packet.bytes.extend_from_slice(block);
        packet.expected = count.wrapping_add(1);
        if packet.bytes.len() == packet_size(cip) as usize {
            return Some(packet.bytes);
        }
        self.unfinished = Some(packet);
        None
    }
}

#[cfg(test)]
mod tests {
    use super::*;
    use crate::samples::{of_length, sound, tagged_0, with};

    /// A frame of the stream with SPH 1 and this DBS, FN and DBC.
    fn frame(id: u64, [dbs, fraction, dbc]: [u8; 3], payload: &[u8]) -> Vec<u8> {
        let headers = with(with(sound(id, payload), 43, dbs), 44, fraction << 6 | 4);
        with(headers, 45, dbc)
    }

    /// A frame of stream 7 with a block of one quadlet for each number.
    fn quadlets(fraction: u8, dbc: u8, blocks: &[u8]) -> Vec<u8> {
        let payload: Vec<u8> = blocks.iter().flat_map(|&byte| [byte; 4]).collect();
        frame(7, [1, fraction, dbc], &payload)
    }

    /// What each frame in turn makes whole, each block as one number; and the counts and
    /// the unfinished blocks after them.
    fn assembled(frames: &[Vec<u8>]) -> (Vec<Vec<u8>>, [usize; 3]) {
        let mut assembly = Assembly::new(7);
        let packets: Vec<Packet> =
            frames.iter().flat_map(|frame| assembly.take_in(frame).unwrap()).collect();
        let numbers = |packet: &Packet| packet.bytes.iter().step_by(4).copied().collect();
        let counts = [assembly.dropped, assembly.passed_over].map(|count| count as usize);
        let after = [counts[0], counts[1], assembly.unfinished_bytes() / 4];
        (packets.iter().map(numbers).collect(), after)
    }

    /// The number that a frame for stream 7 is refused with, or 0.
    fn refusal(frame: &[u8]) -> u64 {
        Assembly::new(7).accept(frame).map_or_else(Refusal::number, |_| 0)
    }

    #[test]
    fn packets_up_to_192_bytes() {
        for (fraction, dbs) in [(0, 48), (1, 24), (2, 12), (3, 6)] {
            let block = vec![9; 4 * usize::from(dbs)];
            for (payload, blocks) in [(vec![], 0), (block, 1)] {
                assert_eq!(refusal(&frame(7, [dbs, fraction, 0], &payload)), 0);
                let over = [&payload[..], &vec![9; 4 * blocks]].concat();
                assert_eq!(refusal(&frame(7, [dbs + 1, fraction, 0], &over)), 52);
            }
            assert_eq!(refusal(&frame(7, [1, fraction, 0], &[])), 0);
            assert_eq!(refusal(&frame(7, [255, fraction, 0], &[])), 52);
            assert_eq!(refusal(&frame(7, [0, fraction, 0], &[])), 52);
            assert_eq!(refusal(&frame(7, [0, fraction, 0], &[0; 1024])), 52);
        }
    }

    #[test]
    fn order_of_the_numbers() {
        let no_sph = |frame: Vec<u8>| with(frame.clone(), 44, frame[44] & !4);
        let over = |id| frame(id, [25, 1, 0], &[]);
        assert_eq!(refusal(&over(7)), 52);
        assert_eq!(refusal(&no_sph(over(7))), 51);
        assert_eq!(refusal(&no_sph(frame(7, [1, 0, 0], &[]))), 51);
        // Its payload would be a header with SPH 1.
        assert_eq!(refusal(&tagged_0(7, &[0, 1, 4, 0, 0, 0, 0, 0])), 50);
        assert_eq!(refusal(&tagged_0(7, &[])), 50);
        for other in [8, 0, 7 | 1 << 63] {
            for frame in [over(other), no_sph(over(other)), tagged_0(other, &[])] {
                assert_eq!(refusal(&frame), 15);
            }
        }
        for id in [7, 8] {
            assert_eq!(refusal(&over(id)[..41]), 1);
            assert_eq!(refusal(&of_length(over(id), 9)), 11);
            assert_eq!(refusal(&with(tagged_0(id, &[]), 40, 0x80)), 12);
            assert_eq!(refusal(&with(no_sph(over(id)), 44, 8)), 16);
            assert_eq!(refusal(&of_length(with(over(id), 40, 0), 9)), 11);
        }
    }

    #[test]
    fn a_refused_frame_leaves_the_assembly() {
        let mut assembly = Assembly::new(7);
        assembly.take_in(&quadlets(1, 3, &[1, 2])).unwrap();
        let mut untouched = Assembly::new(7);
        untouched.take_in(&quadlets(1, 3, &[1, 2])).unwrap();
        for refused in [
            vec![],
            with(quadlets(1, 5, &[3]), 44, 0x4C),
            frame(8, [1, 1, 5], &[0; 4]),
            tagged_0(7, &[0; 12]),
            with(quadlets(1, 5, &[3]), 44, 0x40),
            frame(7, [25, 1, 5], &[0; 100]),
        ] {
            assert!(assembly.take_in(&refused).is_err());
            assert_eq!(assembly, untouched);
        }
        let whole = assembly.take_in(&quadlets(1, 5, &[3])).unwrap();
        assert_eq!(whole, [Packet { bytes: vec![2, 2, 2, 2, 3, 3, 3, 3], next: 1 }]);
    }

    #[test]
    fn eight_blocks_of_six_quadlets_over_any_frames() {
        let packet: Vec<u8> = (0..192).collect();
        // Bit i says whether a frame ends after block i.
        for ends in 0..1 << 7 {
            let mut assembly = Assembly::new(u64::MAX);
            let mut whole = vec![];
            let mut first = 0;
            for last in (0..8).filter(|&block| block == 7 || ends >> block & 1 == 1) {
                let blocks = &packet[24 * first..24 * (last + 1)];
                let dbc = 248 + first as u8;
                whole.extend(assembly.take_in(&frame(u64::MAX, [6, 3, dbc], blocks)).unwrap());
                assert_eq!(whole.len(), usize::from(last == 7));
                first = last + 1;
            }
            assert_eq!((whole[0].stamp(), &whole[0].bytes), (0x0001_0203, &packet));
            assert_eq!(assembly, Assembly::new(u64::MAX));
        }
    }

    #[test]
    fn each_block_of_fn_0_is_a_packet() {
        let frames = [quadlets(0, 255, &[1, 2]), quadlets(0, 77, &[3]), quadlets(0, 77, &[3])];
        assert_eq!(assembled(&frames), (vec![vec![1], vec![2], vec![3], vec![3]], [0, 0, 0]));
    }

    #[test]
    fn what_drops_and_what_is_passed_over() {
        let start = quadlets(2, 8, &[1, 2]);
        let after = |frames: &[Vec<u8>]| assembled(&[&[start.clone()], frames].concat());
        assert_eq!(after(&[]), (vec![], [0, 0, 2]));
        assert_eq!(after(&[quadlets(2, 10, &[3, 4])]), (vec![vec![1, 2, 3, 4]], [0, 0, 0]));
        // A lost block, and then a start.
        assert_eq!(after(&[quadlets(2, 11, &[4, 5])]), (vec![], [1, 1, 1]));
        // A start in place of the block expected, one passed over, and the same again.
        assert_eq!(after(&[quadlets(2, 12, &[5])]), (vec![], [1, 0, 1]));
        assert_eq!(after(&[start.clone()]), (vec![], [1, 0, 2]));
        assert_eq!(after(&[quadlets(2, 9, &[2])]), (vec![], [1, 1, 0]));
        assert_eq!(after(&[quadlets(2, 9, &[2]), quadlets(2, 10, &[3])]), (vec![], [1, 2, 0]));
        // The count goes on; with FN 1 the block is a start, and with FN 0 a packet.
        assert_eq!(after(&[quadlets(3, 10, &[3])]), (vec![], [1, 1, 0]));
        assert_eq!(after(&[quadlets(1, 10, &[3])]), (vec![], [1, 0, 1]));
        assert_eq!(after(&[quadlets(0, 10, &[3])]), (vec![vec![3]], [1, 0, 0]));
        let wider = frame(7, [2, 2, 10], &[3; 8]);
        assert_eq!(after(&[wider.clone()]), (vec![], [1, 1, 0]));
        assert_eq!(after(&[wider, quadlets(2, 11, &[4])]), (vec![], [1, 2, 0]));
        // No blocks change nothing, whatever the header says.
        let empty = frame(7, [3, 1, 99], &[]);
        assert_eq!(after(&[empty, quadlets(2, 10, &[3, 4])]).1, [0, 0, 0]);
        let other_fields = with(with(quadlets(2, 10, &[3, 4]), 20, 9), 46, 0x9F);
        assert_eq!(after(&[with(other_fields, 19, 0x89)]).1, [0, 0, 0]);
    }

    #[test]
    fn a_repeat_of_a_finished_packet_is_given_again() {
        let frames = [quadlets(1, 254, &[1, 2]), quadlets(1, 254, &[1, 2])];
        assert_eq!(assembled(&frames), (vec![vec![1, 2], vec![1, 2]], [0, 0, 0]));
    }

    #[test]
    fn counts_of_a_long_frame_wrap() {
        let blocks: Vec<u8> = (0..=255).cycle().take(367).collect();
        let (packets, after) = assembled(&[quadlets(3, 250, &blocks), quadlets(3, 105, &[111])]);
        assert_eq!((packets.len(), after), (45, [0, 6, 2]));
        assert_eq!(packets[0], [6, 7, 8, 9, 10, 11, 12, 13]);
    }

    #[test]
    fn counts_stay_at_the_largest() {
        let mut assembly = Assembly { dropped: u32::MAX - 1, ..Assembly::new(7) };
        assembly.passed_over = u32::MAX - 2;
        for (dropped, passed_over) in
            [(u32::MAX, u32::MAX - 1), (u32::MAX, u32::MAX), (u32::MAX, u32::MAX)]
        {
            assembly.take_in(&quadlets(1, 2, &[1])).unwrap();
            assembly.take_in(&quadlets(1, 1, &[2])).unwrap();
            assert_eq!((assembly.dropped, assembly.passed_over), (dropped, passed_over));
        }
    }

    /// A block with its header.
    type Counted = (Cip, u8, Vec<u8>);

    /// What becomes of a block.
    #[derive(Clone, Copy, Debug, PartialEq, Eq)]
    enum Fate {
        Given,
        Dropped,
        PassedOver,
        Unfinished,
    }

    /// How many blocks of one DBS and FN, from a start on with successive counts, there are
    /// from a place on, up to a whole packet; none where the block there is no start.
    fn run(blocks: &[Counted], from: usize) -> usize {
        let (first, start, _) = &blocks[from];
        let packet = 1 << first.fraction;
        if usize::from(*start) % packet != 0 {
            return 0;
        }
        let of_run = |(place, (cip, count, _)): &(usize, &Counted)| {
            (cip.dbs, cip.fraction) == (first.dbs, first.fraction)
                && usize::from(*count) == (usize::from(*start) + place) % 256
        };
        blocks[from..].iter().take(packet).enumerate().take_while(of_run).count()
    }

    /// By the request's second wording: the packets, and the fate of each block.
    fn by_runs(blocks: &[Counted]) -> (Vec<Vec<u8>>, Vec<Fate>) {
        let mut packets = vec![];
        let mut fates = vec![None; blocks.len()];
        for from in 0..blocks.len() {
            let length = run(blocks, from);
            let fate = match length {
                0 => continue,
                _ if length == 1 << blocks[from].0.fraction => {
                    packets.push(blocks[from..from + length].iter().flat_map(|b| b.2.clone()));
                    Fate::Given
                }
                _ if from + length == blocks.len() => Fate::Unfinished,
                _ => Fate::Dropped,
            };
            for of_run in &mut fates[from..from + length] {
                assert_eq!(of_run.replace(fate), None, "two runs share a block");
            }
        }
        let fates = fates.into_iter().map(|fate| fate.unwrap_or(Fate::PassedOver)).collect();
        (packets.into_iter().map(Iterator::collect).collect(), fates)
    }

    /// The same by the steps of an assembly.
    fn by_steps(blocks: &[Counted]) -> (Vec<Vec<u8>>, Vec<Fate>) {
        let mut assembly = Assembly::new(7);
        let mut packets = vec![];
        let mut fates = vec![Fate::Unfinished; blocks.len()];
        // Where the unfinished packet starts.
        let mut start = 0;
        for (place, (cip, count, block)) in blocks.iter().enumerate() {
            let before = (assembly.unfinished.is_some(), assembly.dropped, assembly.passed_over);
            let whole = assembly.step(cip, *count, block);
            let dropped = assembly.dropped - before.1;
            let passed_over = assembly.passed_over - before.2;
            assert!(dropped <= u32::from(before.0) && passed_over <= 1);
            if dropped == 1 {
                fates[start..place].fill(Fate::Dropped);
            }
            if dropped == 1 || !before.0 {
                start = place;
            }
            if passed_over == 1 {
                assert!(whole.is_none() && assembly.unfinished.is_none());
                fates[place] = Fate::PassedOver;
            }
            if let Some(bytes) = whole {
                assert!(assembly.unfinished.is_none());
                fates[start..=place].fill(Fate::Given);
                packets.push(bytes);
            }
        }
        (packets, fates)
    }

    /// Numbers of no meaning, the same at every run.
    struct Numbers(u64);

    impl Numbers {
        fn below(&mut self, bound: u64) -> u64 {
            self.0 = self.0.wrapping_mul(6_364_136_223_846_793_005).wrapping_add(1);
            (self.0 >> 33) % bound
        }
    }

    /// A list of frames for stream 7, in which the count mostly goes on, and the blocks of
    /// those that are accepted.
    fn frames(numbers: &mut Numbers) -> (Vec<Vec<u8>>, Vec<Counted>) {
        let (mut frames, mut blocks) = (vec![], vec![]);
        let (mut dbs, mut fraction, mut dbc) = (1, 1, numbers.below(256) as u8);
        for number in 0..numbers.below(30) {
            match numbers.below(8) {
                0 => dbc = dbc.wrapping_add(numbers.below(9) as u8).wrapping_sub(4),
                1 => fraction = numbers.below(4) as u8,
                2 => dbs = numbers.below(2) as u8 + 1,
                _ => {}
            }
            let size = 4 * usize::from(dbs);
            let count = numbers.below(12) as usize;
            let mut payload = vec![number as u8; count * size];
            for (place, block) in payload.chunks_exact_mut(size).enumerate() {
                block[0] = place as u8;
            }
            let sent = frame(7, [dbs, fraction, dbc], &payload);
            frames.push(match numbers.below(16) {
                0 => with(sent, 29, 8),
                1 => with(sent, 40, 0),
                2 => with(sent.clone(), 44, sent[44] & !4),
                3 => with(sent.clone(), 44, sent[44] | 8),
                4 => frame(7, [49, fraction, dbc], &[]),
                _ => {
                    let cip = parse_frame(&sent).unwrap().cip;
                    let counted = cip.counted_blocks(&payload);
                    blocks.extend(counted.map(|(count, block)| (cip, count, block.to_vec())));
                    dbc = dbc.wrapping_add(count as u8);
                    sent
                }
            });
        }
        (frames, blocks)
    }

    #[test]
    fn packets_are_exactly_the_runs() {
        let numbers = &mut Numbers(110);
        let mut seen = [0; 4];
        for _ in 0..3000 {
            let (frames, blocks) = frames(numbers);
            let (packets, fates) = by_runs(&blocks);
            assert_eq!(by_steps(&blocks), (packets.clone(), fates.clone()));
            let mut assembly = Assembly::new(7);
            let whole: Vec<Packet> = frames
                .iter()
                .flat_map(|frame| assembly.take_in(frame).unwrap_or_default())
                .collect();
            assert!(whole.iter().map(|packet| &packet.bytes).eq(&packets));
            let of = |fate| fates.iter().filter(|&&one| one == fate).count();
            assert_eq!(assembly.passed_over as usize, of(Fate::PassedOver));
            let bytes: usize = whole.iter().map(|packet| packet.bytes.len()).sum();
            let all: usize = blocks.iter().map(|(_, _, block)| block.len()).sum();
            let left = |fate| -> usize {
                let kept = blocks.iter().zip(&fates).filter(|(_, &one)| one == fate);
                kept.map(|((_, _, block), _)| block.len()).sum()
            };
            assert_eq!(assembly.unfinished_bytes(), left(Fate::Unfinished));
            let lost = left(Fate::Dropped) + left(Fate::PassedOver);
            assert_eq!(bytes + lost + assembly.unfinished_bytes(), all);
            let fates_seen = [Fate::Given, Fate::Dropped, Fate::PassedOver, Fate::Unfinished];
            for (seen, fate) in seen.iter_mut().zip(fates_seen) {
                *seen += of(fate);
            }
        }
        assert!(seen.iter().all(|&seen| seen > 1000), "{seen:?}");
    }
}
