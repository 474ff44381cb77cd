//! Cases of whole source packets (request #110).
//!
//! A frame that is refused is some of these:
//!
//! - `packet refused 7`, and the same of every other number.
//! - `packet refused 7 of another stream`, and the same of every other number of a reader's.
//! - `packet refused 15, tag 0`, and the same of `SPH 0`, `over 192 bytes`, `sound` and `one
//!   bit off`: what else is so of another stream's frame.
//! - `packet refused 50, SPH 1` and `packet refused 50, SPH 0`: what would be SPH with tag 1.
//! - `packet refused 51, over 192 bytes` and `packet refused 51, within 192 bytes`.
//! - `packet refused 52 fn=2, DBS one over`, and the same of `0` and `any`, and of each with
//!   `, no blocks`.
//!
//! One that is taken in may be some of these:
//!
//! - `packet fn=2 no blocks`, `packet padding`, `packet padding of a block`.
//! - `packet over 256 blocks`, `packet wrap in a frame`: how many there are, and what the
//!   count does between them.
//! - `packet first block no start`: the first of the capture.
//!
//! The end of a capture says of each packet that is given out, by the blocks of all frames
//! and not frame by frame:
//!
//! - `packet fn=2`, `packet fn=2 of 192 bytes`, `packet fn=2 over 3 frames`.
//! - `packet from a wrap on over frames`: its first block has count 0 and isn't the first of
//!   its frame, and its last is in another.
//! - `packet given again`: it is the one before, block by block.
//! - `packet across a frame refused 7`, and the same of a frame with no blocks, of a change
//!   between frames and of a record: what comes between its blocks.
//!
//! And of each packet that is dropped, and of blocks that are passed over:
//!
//! - `packet dropped by count and DBS, a start`, and the same of FN, of each alone and of
//!   `no start`: what the block that drops it differs in, and whether it is a start.
//! - `packet dropped by its last block again`, `packet dropped by its first block again`.
//! - `packet dropped 1 block short`.
//! - `packet block passed over after a drop`, and the same of `a packet`, `another` and `the
//!   beginning`.
//!
//! And at last:
//!
//! - `packets of an empty capture`, `packets of id 0`, `packets of id 18446744073709551615`.
//! - `packets unfinished at the end`, `packets unfinished before a cut record`.
//! - `packets split in all 128 ways`: with FN 3, over frames.
//!
//! Each frame, or the end, may be some of these too, each once in a capture:
//!
//! - `packet told from 50 before 15`, and so on: an assembler with this fault, of those in
//!   `FAULTY_ASSEMBLERS`, would answer otherwise.
//!
//! It is told here by the frames' bytes, by the rules of `packet_rules.rs` and by the runs of
//! blocks. What the room of assemblies answers otherwise is `packet judged otherwise`, which
//! isn't to come up.

use crate::assembly::{Assembly, Packet};
use crate::capture::{parse_record, CaptureRecord};
use crate::frame::parse_frame;
use crate::packet_rules::{assemblers, blocks_of, stream_id, Answer, Kept, FAULTY_ASSEMBLERS};
use crate::refusal::Refusal;
use crate::tag_rules::Sent;
use std::collections::BTreeSet;

/// What is not to come up.
const JUDGED_OTHERWISE: &str = "packet judged otherwise";

/// A block of a frame that was taken in.
struct Block {
    /// The frame, and the block's place in it.
    frame: usize,
    place: usize,
    dbs: u8,
    fraction: u8,
    count: usize,
    starts: bool,
    bytes: Vec<u8>,
}

/// The source packets of a capture, as the records so far give them.
pub struct WholePackets {
    id: u64,
    assembly: Assembly,
    /// What each assembler of `packet_rules.rs` keeps, the right one first, and whether
    /// each faulty one was told from it.
    kept: Vec<Kept>,
    told: Vec<bool>,
    records: usize,
    /// Frames that were taken in, and the sequence number, mr and FMT of the last.
    frames: usize,
    last: Option<(u8, bool, u8)>,
    blocks: Vec<Block>,
    /// What came before the block of a number that isn't a frame with blocks.
    between: Vec<(usize, String)>,
    /// Packets given out.
    given: Vec<Vec<u8>>,
}

/// What the room of assemblies makes of a frame, as the rules have it.
fn answered(answer: &Result<Vec<Packet>, Refusal>, assembly: &Assembly) -> Answer {
    let taken = |packet: &Packet| (packet.next, packet.stamp(), packet.bytes.clone());
    match answer {
        Err(refusal) => Answer::Refused(refusal.number()),
        Ok(packets) => Answer::TakenIn {
            packets: packets.iter().map(taken).collect(),
            dropped: assembly.dropped as usize,
            passed: assembly.passed_over as usize,
            unfinished: assembly.unfinished_bytes(),
        },
    }
}

/// Bytes in the source packet of a frame with tag 1.
fn packet_bytes(sent: &Sent) -> usize {
    sent.block() << sent.fraction()
}

/// What is so of another stream's frame that a reader accepts.
fn of_another_stream(sent: &Sent, id: u64) -> Vec<&'static str> {
    let mut cases = vec![match sent.tag {
        0 => "tag 0",
        _ if sent.sph() == 0 => "SPH 0",
        _ if packet_bytes(sent) > 192 => "over 192 bytes",
        _ => "sound",
    }];
    if (stream_id(sent) ^ id).is_power_of_two() {
        cases.push("one bit off");
    }
    cases
}

/// What a frame that is refused is a case of.
fn refused_cases(sent: &Sent, id: u64, number: u64) -> Vec<String> {
    let refused = format!("packet refused {number}");
    let mut cases = vec![refused.clone()];
    match number {
        15 => cases.extend(of_another_stream(sent, id).iter().map(|is| format!("{refused}, {is}"))),
        50 if sent.length() >= 8 => cases.push(format!("{refused}, SPH {}", sent.sph())),
        50 => {}
        51 => {
            let size = if packet_bytes(sent) > 192 { "over" } else { "within" };
            cases.push(format!("{refused}, {size} 192 bytes"));
        }
        52 => {
            let dbs = match sent.block() {
                1024 => "0",
                block if (block - 4) << sent.fraction() == 192 => "one over",
                _ => "any",
            };
            let blocks = if sent.length() == 8 { ", no blocks" } else { "" };
            cases.push(format!("{refused} fn={}, DBS {dbs}{blocks}", sent.fraction()));
        }
        _ if sent.frame.len() >= 42 && stream_id(sent) != id => {
            cases.push(format!("{refused} of another stream"));
        }
        _ => {}
    }
    cases
}

/// How many blocks there are from a place on of one DBS and FN, from a start on with
/// successive counts, up to a whole packet; none where the block there is no start.
fn run(blocks: &[Block]) -> usize {
    let first = &blocks[0];
    let of_run = |(place, block): &(usize, &Block)| {
        (block.dbs, block.fraction) == (first.dbs, first.fraction)
            && block.count == (first.count + place) % 256
    };
    match first.starts {
        true => blocks.iter().take(1 << first.fraction).enumerate().take_while(of_run).count(),
        false => 0,
    }
}

/// What the block after a run that isn't whole differs in from the one that was expected.
fn differs_in(run: &[Block], dropping: &Block) -> String {
    let last = &run[run.len() - 1];
    let fields = [
        ("count", dropping.count != (last.count + 1) % 256),
        ("DBS", dropping.dbs != last.dbs),
        ("FN", dropping.fraction != last.fraction),
    ];
    let other: Vec<_> = fields.iter().filter(|(_, other)| *other).map(|(name, _)| *name).collect();
    other.join(" and ")
}

/// What a packet that is dropped is a case of.
fn dropped_cases(run: &[Block], dropping: &Block) -> Vec<String> {
    let same = |block: &Block| {
        (block.dbs, block.fraction, block.count)
            == (dropping.dbs, dropping.fraction, dropping.count)
    };
    let start = if dropping.starts { "a start" } else { "no start" };
    let mut cases = vec![format!("packet dropped by {}, {start}", differs_in(run, dropping))];
    if run.len() > 1 && run.last().is_some_and(same) {
        cases.push("packet dropped by its last block again".into());
    }
    if same(&run[0]) {
        cases.push("packet dropped by its first block again".into());
    }
    if run.len() + 1 == 1 << run[0].fraction {
        cases.push("packet dropped 1 block short".into());
    }
    cases
}

/// What is so of a packet that is given out, by its blocks.
fn given_cases(run: &[Block]) -> Vec<String> {
    let (first, last) = (&run[0], &run[run.len() - 1]);
    let name = format!("packet fn={}", first.fraction);
    let frames: BTreeSet<usize> = run.iter().map(|block| block.frame).collect();
    let mut cases = vec![name.clone(), format!("{name} over {} frames", frames.len())];
    if run.len() * first.bytes.len() == 192 {
        cases.push(format!("{name} of 192 bytes"));
    }
    if first.count == 0 && first.place > 0 && first.frame != last.frame {
        cases.push("packet from a wrap on over frames".into());
    }
    cases
}

/// After which of its blocks a packet goes on in another frame, a bit each.
fn split(run: &[Block]) -> usize {
    let goes_over = |pair: &[Block]| usize::from(pair[0].frame != pair[1].frame);
    run.windows(2).fold(0, |bits, pair| bits << 1 | goes_over(pair))
}

impl WholePackets {
    /// No record of the capture was read.
    pub fn new(id: u64) -> WholePackets {
        WholePackets {
            id,
            assembly: Assembly::new(id),
            kept: assemblers().map(|_| Kept::default()).collect(),
            told: vec![false; FAULTY_ASSEMBLERS.len()],
            records: 0,
            frames: 0,
            last: None,
            blocks: vec![],
            between: vec![],
            given: vec![],
        }
    }

    /// The faulty assemblers that are first told by these answers, of which the right one's
    /// is the first.
    fn first_told<T: PartialEq>(&mut self, answers: &[T]) -> Vec<String> {
        let mut cases = vec![];
        let faulty = FAULTY_ASSEMBLERS.iter().zip(&answers[1..]).zip(&mut self.told);
        for (((name, _), answer), told) in faulty {
            if !*told && *answer != answers[0] {
                *told = true;
                cases.push(format!("packet told from {name}"));
            }
        }
        cases
    }

    /// Notes what came between two blocks.
    fn comes_between(&mut self, what: impl Into<String>) {
        self.between.push((self.blocks.len(), what.into()));
    }

    /// Notes the changes between two frames that are taken in.
    fn compare_with_last(&mut self, sent: &Sent) {
        let now = (sent.sequence(), sent.mr(), sent.format()[0]);
        if let Some(last) = self.last.replace(now) {
            for (changed, what) in [
                (now.0 != last.0.wrapping_add(1), "a sequence break"),
                (now.1 != last.1, "an mr change"),
                (now.2 != last.2, "an FMT change"),
            ] {
                if changed {
                    self.comes_between(what);
                }
            }
        }
    }

    /// Takes in a frame that isn't refused, and says what it is a case of.
    fn taken_in(&mut self, sent: &Sent) -> Vec<String> {
        self.compare_with_last(sent);
        self.frames += 1;
        let blocks = blocks_of(sent);
        let mut cases = vec![];
        match blocks.first() {
            None => {
                cases.push(format!("packet fn={} no blocks", sent.fraction()));
                let expected = self.blocks.last().map(|block| (block.count + 1) % 256);
                let goes_on = expected == Some(usize::from(sent.dbc()));
                let how = if goes_on { "count going on" } else { "another count" };
                self.comes_between(format!("no blocks, {how}"));
            }
            Some(first) if self.blocks.is_empty() && !first.starts() => {
                cases.push("packet first block no start".into());
            }
            _ => {}
        }
        match sent.frame.len() - 42 - sent.length() {
            0 => {}
            padding if padding >= sent.block() => cases.push("packet padding of a block".into()),
            _ => cases.push("packet padding".into()),
        }
        if blocks.len() > 256 {
            cases.push("packet over 256 blocks".into());
        }
        if blocks.iter().skip(1).any(|block| block.count == 0) {
            cases.push("packet wrap in a frame".into());
        }
        let frame = self.frames;
        self.blocks.extend(blocks.iter().map(|block| Block {
            frame,
            place: block.place,
            dbs: block.dbs,
            fraction: block.fraction,
            count: block.count,
            starts: block.starts(),
            bytes: block.bytes.to_vec(),
        }));
        cases
    }

    /// Takes in a frame, and says what it is a case of.
    fn frame(&mut self, frame: &[u8]) -> Vec<String> {
        let answer = self.assembly.take_in(frame);
        let tag = frame.get(40).map_or(0, |byte| byte >> 6);
        let sent = &Sent { frame, tag };
        let by_reader = parse_frame(frame).err().map(Refusal::number);
        let answers: Vec<Answer> = assemblers()
            .zip(&mut self.kept)
            .map(|(rules, kept)| rules.take_in(kept, self.id, sent, by_reader))
            .collect();
        if answers[0] != answered(&answer, &self.assembly) {
            return vec![JUDGED_OTHERWISE.into()];
        }
        let mut cases = self.first_told(&answers);
        match answer {
            Ok(packets) => {
                self.given.extend(packets.into_iter().map(|packet| packet.bytes));
                cases.extend(self.taken_in(sent));
            }
            Err(refusal) => {
                self.comes_between(format!("a frame refused {}", refusal.number()));
                cases.extend(refused_cases(sent, self.id, refusal.number()));
            }
        }
        cases
    }

    /// Takes in a record, and says what it is a case of.
    pub fn record(&mut self, record: &[u8]) -> Vec<String> {
        self.records += 1;
        match parse_record(record) {
            Ok(CaptureRecord::Frame { frame, .. }) => return self.frame(frame),
            Ok(CaptureRecord::Admit { .. }) => {
                self.comes_between(format!("a record of kind {}", record[0]));
            }
            Err(refusal) => {
                self.comes_between(format!("a record refused {}", refusal.number()));
            }
        }
        vec![]
    }

    /// What comes between the blocks of a packet.
    fn across(&self, from: usize, length: usize) -> Vec<String> {
        let within = self.between.iter().filter(|(at, _)| (from + 1..from + length).contains(at));
        within.map(|(_, what)| format!("packet across {what}")).collect()
    }

    /// What the packets and the other blocks are cases of, by runs; and the packets given
    /// out, those dropped and the blocks passed over.
    fn runs(&self) -> (Vec<String>, (Vec<Vec<u8>>, [usize; 2])) {
        let (mut cases, mut packets, mut counts) = (vec![], vec![], [0; 2]);
        let mut splits = BTreeSet::new();
        let (mut from, mut before) = (0, "the beginning");
        while from < self.blocks.len() {
            let rest = &self.blocks[from..];
            let length = run(rest);
            if length == 0 {
                cases.push(format!("packet block passed over after {before}"));
                (before, counts[1]) = ("another", counts[1] + 1);
                from += 1;
                continue;
            }
            let of_run = &rest[..length];
            if length == 1 << rest[0].fraction {
                cases.extend(given_cases(of_run));
                cases.extend(self.across(from, length));
                let packet: Vec<u8> = of_run.iter().flat_map(|block| block.bytes.clone()).collect();
                if before == "a packet" && packets.last() == Some(&packet) {
                    cases.push("packet given again".into());
                }
                if rest[0].fraction == 3 {
                    splits.insert(split(of_run));
                }
                packets.push(packet);
                before = "a packet";
            } else if let Some(dropping) = rest.get(length) {
                cases.extend(dropped_cases(of_run, dropping));
                (before, counts[0]) = ("a drop", counts[0] + 1);
            }
            from += length;
        }
        if splits.len() == 128 {
            cases.push("packets split in all 128 ways".into());
        }
        (cases, (packets, counts))
    }

    /// What the end of the capture is a case of; `cut` are the bytes after its last whole
    /// record.
    pub fn end_cases(mut self, cut: &[u8]) -> Vec<String> {
        let kept = std::mem::take(&mut self.kept);
        let ends: Vec<_> = assemblers().zip(kept).map(|(rules, kept)| rules.end(kept)).collect();
        let mut cases = self.first_told(&ends);
        let (of_runs, (packets, counts)) = self.runs();
        cases.extend(of_runs);
        let counted =
            [self.assembly.dropped, self.assembly.passed_over].map(|count| count as usize);
        if (packets != self.given) || [counts, ends[0]] != [counted; 2] {
            cases.push(JUDGED_OTHERWISE.into());
        }
        if self.records == 0 && cut.is_empty() {
            cases.push("packets of an empty capture".into());
        }
        if !packets.is_empty() && [0, u64::MAX].contains(&self.id) {
            cases.push(format!("packets of id {}", self.id));
        }
        if self.assembly.unfinished_bytes() > 0 {
            let end = if cut.is_empty() { "at the end" } else { "before a cut record" };
            cases.push(format!("packets unfinished {end}"));
        }
        cases
    }
}
