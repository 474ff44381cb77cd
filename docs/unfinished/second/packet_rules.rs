//! The rules about whole source packets (request #110), and assemblers that have one of
//! them wrong.
//!
//! The rules are put down here by themselves, over the bytes of frames, and share nothing
//! with the room of assemblies, so that what a frame tells from a faulty assembler is told
//! by another hand. What a reader refuses is none of theirs.

use crate::tag_rules::Sent;

/// Room for a source packet.
const ROOM: usize = 192;

/// A block of a frame.
#[derive(Clone, Copy)]
pub struct Block<'a> {
    pub dbs: u8,
    pub fraction: u8,
    /// Its place in the frame, from 0.
    pub place: usize,
    pub count: usize,
    pub bytes: &'a [u8],
}

impl Block<'_> {
    /// Whether its count has its lowest FN bits zero.
    pub fn starts(&self) -> bool {
        self.count % (1 << self.fraction) == 0
    }
}

/// A source packet being put together.
struct Begun {
    dbs: u8,
    fraction: u8,
    blocks: usize,
    /// The count of its last block.
    count: usize,
    bytes: Vec<u8>,
}

/// What an assembler keeps.
#[derive(Default)]
pub struct Kept {
    begun: Option<Begun>,
    dropped: usize,
    passed: usize,
    /// The sequence number, mr and FMT of the last frame that was taken in.
    last: Option<(u8, bool, u8)>,
    /// FN of the last packet begun, the last count of the last packet given, and the packets
    /// of the frame so far.
    fraction: u8,
    given: Option<usize>,
    of_frame: usize,
}

/// A whole packet: the place to go on from, its stamp and its bytes.
pub type Packet = (usize, u32, Vec<u8>);

/// What an assembler makes of a frame.
#[derive(Debug, PartialEq, Eq)]
pub enum Answer {
    Refused(u64),
    TakenIn { packets: Vec<Packet>, dropped: usize, passed: usize, unfinished: usize },
}

/// The rules, each of which an assembler may have wrong. Where two numbers are counted,
/// these are packets dropped and blocks passed over.
pub struct Rules {
    /// What a frame that a reader accepts is refused with, given the stream's id.
    refused: fn(&Sent, u64) -> Option<u64>,
    /// Whether a frame that is refused with this number drops the packet begun.
    refusal_drops: fn(u64) -> bool,
    /// Whether a frame does, before its blocks are looked at.
    frame_drops: fn(&Kept, &Sent) -> bool,
    /// The bytes of a frame that are taken for blocks.
    data: fn(&Sent) -> usize,
    /// The count of the block at a place.
    count: fn(&Sent, usize) -> usize,
    /// Whether a block is passed by altogether.
    left_out: fn(&Begun, &Block) -> bool,
    /// Whether a block goes on with the packet begun.
    goes_on: fn(&Begun, &Block) -> bool,
    /// Whether a block begins a packet, while waiting and where it dropped one.
    begins: fn(&Kept, &Block) -> bool,
    begins_dropping: fn(&Kept, &Block) -> bool,
    /// What is counted for a packet that is dropped.
    when_dropped: fn(&Begun) -> [usize; 2],
    /// What is counted for a block that begins nothing, while waiting and where it dropped
    /// a packet.
    when_passed: [usize; 2],
    when_passed_dropping: [usize; 2],
    whole: fn(&Begun) -> bool,
    /// Whether a whole packet is given out.
    gives: fn(&Kept, &Begun) -> bool,
    stamp: fn(&Sent, &[u8]) -> u32,
    /// What is counted for the packet that is unfinished at the end.
    when_unfinished: [usize; 2],
}

/// The fields of a frame's CIP header, which read as 0 with tag 0.
fn sph(sent: &Sent) -> bool {
    sent.tag == 1 && sent.sph() == 1
}

fn packet_bytes(sent: &Sent) -> usize {
    match sent.tag {
        1 => sent.block() << sent.fraction(),
        _ => 1024,
    }
}

/// The id of a frame's stream.
pub fn stream_id(sent: &Sent) -> u64 {
    u64::from(sent.number(22)) << 32 | u64::from(sent.number(26))
}

/// Whether a number's condition holds.
fn applies(number: u64, sent: &Sent, id: u64) -> bool {
    match number {
        15 => stream_id(sent) != id,
        50 => sent.tag == 0,
        51 => !sph(sent),
        _ => packet_bytes(sent) > ROOM,
    }
}

/// The first of these numbers that applies.
fn first_of(numbers: &[u64], sent: &Sent, id: u64) -> Option<u64> {
    numbers.iter().copied().find(|&number| applies(number, sent, id))
}

/// The number of a frame for which 52 has another condition.
fn with_52(sent: &Sent, id: u64, over: bool) -> Option<u64> {
    first_of(&[15, 50, 51], sent, id).or(over.then_some(52))
}

/// The first four bytes, as a number.
fn first_quadlet(bytes: &[u8]) -> u32 {
    bytes.iter().take(4).fold(0, |number, &byte| number << 8 | u32::from(byte))
}

/// The rules as the papers have them.
const RIGHT: Rules = Rules {
    refused: |sent, id| first_of(&[15, 50, 51, 52], sent, id),
    refusal_drops: |_| false,
    frame_drops: |_, _| false,
    data: |sent| sent.length() - 8,
    count: |sent, place| (usize::from(sent.dbc()) + place) % 256,
    left_out: |_, _| false,
    goes_on: |begun, block| {
        let expected = (begun.count + 1) % 256;
        (begun.dbs, begun.fraction, expected) == (block.dbs, block.fraction, block.count)
    },
    begins: |_, block| block.starts(),
    begins_dropping: |_, block| block.starts(),
    when_dropped: |_| [1, 0],
    when_passed: [0, 1],
    when_passed_dropping: [0, 1],
    whole: |begun| begun.blocks == 1 << begun.fraction,
    gives: |_, _| true,
    stamp: |_, bytes| first_quadlet(bytes),
    when_unfinished: [0, 0],
};

/// Rules that refuse otherwise.
const fn refusing(refused: fn(&Sent, u64) -> Option<u64>) -> Rules {
    Rules { refused, ..RIGHT }
}

/// Rules by which a refused frame drops.
const fn refusal_dropping(refusal_drops: fn(u64) -> bool) -> Rules {
    Rules { refusal_drops, ..RIGHT }
}

/// Rules by which a frame drops.
const fn frame_dropping(frame_drops: fn(&Kept, &Sent) -> bool) -> Rules {
    Rules { frame_drops, ..RIGHT }
}

/// Rules by which other blocks go on with a packet.
const fn going_on(goes_on: fn(&Begun, &Block) -> bool) -> Rules {
    Rules { goes_on, ..RIGHT }
}

/// Rules by which other blocks begin a packet.
const fn beginning(begins: fn(&Kept, &Block) -> bool) -> Rules {
    Rules { begins, begins_dropping: begins, ..RIGHT }
}

/// Rules by which something else is counted for a packet that is dropped.
const fn counting(when_dropped: fn(&Begun) -> [usize; 2]) -> Rules {
    Rules { when_dropped, ..RIGHT }
}

/// Rules by which a packet is whole earlier or later.
const fn completing(whole: fn(&Begun) -> bool) -> Rules {
    Rules { whole, ..RIGHT }
}

/// Rules that don't give out each packet.
const fn giving(gives: fn(&Kept, &Begun) -> bool) -> Rules {
    Rules { gives, ..RIGHT }
}

/// Rules that take another stamp.
const fn stamping(stamp: fn(&Sent, &[u8]) -> u32) -> Rules {
    Rules { stamp, ..RIGHT }
}

/// The payload of a frame as it was sent.
fn payload<'a>(sent: &Sent<'a>) -> &'a [u8] {
    &sent.frame[50..42 + sent.length()]
}

/// Assemblers with one rule wrong, each after the name of its fault.
pub const FAULTY_ASSEMBLERS: &[(&str, Rules)] = &[
    ("50 before 15", refusing(|sent, id| first_of(&[50, 15, 51, 52], sent, id))),
    ("51 before 15", refusing(|sent, id| first_of(&[51, 15, 50, 52], sent, id))),
    ("52 before 15", refusing(|sent, id| first_of(&[52, 15, 50, 51], sent, id))),
    ("51 before 50", refusing(|sent, id| first_of(&[15, 51, 50, 52], sent, id))),
    ("52 before 50", refusing(|sent, id| first_of(&[15, 52, 50, 51], sent, id))),
    ("52 before 51", refusing(|sent, id| first_of(&[15, 50, 52, 51], sent, id))),
    ("no 15", refusing(|sent, id| first_of(&[50, 51, 52], sent, id))),
    ("no 51", refusing(|sent, id| first_of(&[15, 50, 52], sent, id))),
    (
        "15 by the upper half",
        refusing(|sent, id| {
            let same = stream_id(sent) >> 32 == id >> 32;
            first_of(&[15, 50, 51, 52][usize::from(same)..], sent, id)
        }),
    ),
    (
        "15 by the lower half",
        refusing(|sent, id| {
            let same = stream_id(sent) as u32 == id as u32;
            first_of(&[15, 50, 51, 52][usize::from(same)..], sent, id)
        }),
    ),
    ("room of 188", refusing(|sent, id| with_52(sent, id, packet_bytes(sent) > 188))),
    ("room of 196", refusing(|sent, id| with_52(sent, id, packet_bytes(sent) > 196))),
    ("52 by the block", refusing(|sent, id| with_52(sent, id, sent.block() > ROOM))),
    (
        "52 with a payload only",
        refusing(|sent, id| with_52(sent, id, sent.length() > 8 && packet_bytes(sent) > ROOM)),
    ),
    (
        "DBS 0 as nothing",
        refusing(|sent, id| with_52(sent, id, sent.block() < 1024 && packet_bytes(sent) > ROOM)),
    ),
    ("drop at a reader's number", refusal_dropping(|number| number < 15 || number == 16)),
    ("drop at 15", refusal_dropping(|number| number == 15)),
    ("drop at 50", refusal_dropping(|number| number == 50)),
    ("drop at 51", refusal_dropping(|number| number == 51)),
    ("drop at 52", refusal_dropping(|number| number == 52)),
    ("drop at each frame", frame_dropping(|_, _| true)),
    ("drop without blocks", frame_dropping(|_, sent| sent.length() == 8)),
    (
        "drop without blocks by the count",
        frame_dropping(|kept, sent| {
            let expected = kept.begun.as_ref().map(|begun| begun.count + 1);
            sent.length() == 8 && expected != Some(usize::from(sent.dbc()))
        }),
    ),
    (
        "drop at a sequence break",
        frame_dropping(|kept, sent| {
            kept.last.is_some_and(|last| last.0.wrapping_add(1) != sent.sequence())
        }),
    ),
    (
        "drop at an mr change",
        frame_dropping(|kept, sent| kept.last.is_some_and(|last| last.1 != sent.mr())),
    ),
    (
        "drop at an FMT change",
        frame_dropping(|kept, sent| kept.last.is_some_and(|last| last.2 != sent.format()[0])),
    ),
    ("padding as blocks", Rules { data: |sent| sent.frame.len() - 50, ..RIGHT }),
    (
        "count past 255",
        Rules {
            count: |sent, place| usize::from(sent.dbc()) + place,
            goes_on: |begun, block| {
                (begun.dbs, begun.fraction, begun.count + 1)
                    == (block.dbs, block.fraction, block.count)
            },
            ..RIGHT
        },
    ),
    (
        "DBS not compared",
        going_on(|begun, block| (begun.fraction, begun.count + 1) == (block.fraction, block.count)),
    ),
    (
        "FN not compared",
        going_on(|begun, block| (begun.dbs, begun.count + 1) == (block.dbs, block.count)),
    ),
    (
        "count not compared",
        going_on(|begun, block| (begun.dbs, begun.fraction) == (block.dbs, block.fraction)),
    ),
    (
        "count compared in its lowest FN bits",
        going_on(|begun, block| {
            (begun.dbs, begun.fraction, begun.blocks)
                == (block.dbs, block.fraction, block.count % (1 << block.fraction))
        }),
    ),
    (
        "repeated block left out",
        Rules { left_out: |begun, block| begun.count == block.count, ..RIGHT },
    ),
    ("start at any block", beginning(|_, _| true)),
    ("start at a frame's first block", beginning(|_, block| block.place == 0 || block.starts())),
    (
        "start at a frame's first block only",
        beginning(|_, block| block.place == 0 && block.starts()),
    ),
    ("start at each eighth block only", beginning(|_, block| block.count % 8 == 0)),
    ("start at count 0 only", beginning(|_, block| block.count == 0)),
    ("start by the FN before", beginning(|kept, block| block.count % (1 << kept.fraction) == 0)),
    ("dropping block begins nothing", Rules { begins_dropping: |_, _| false, ..RIGHT }),
    ("dropping block begins a packet", Rules { begins_dropping: |_, _| true, ..RIGHT }),
    ("dropping block not passed over", Rules { when_passed_dropping: [0, 0], ..RIGHT }),
    ("drop not counted", counting(|_| [0, 0])),
    ("drop counted by blocks", counting(|begun| [begun.blocks, 0])),
    ("dropped blocks passed over", counting(|begun| [1, begun.blocks])),
    ("drop counted while waiting", Rules { when_passed: [1, 1], ..RIGHT }),
    ("drop counted twice", Rules { when_passed_dropping: [1, 1], ..RIGHT }),
    ("blocks passed over not counted", Rules { when_passed: [0, 0], ..RIGHT }),
    ("FN 0 never whole", completing(|begun| begun.fraction > 0 && (RIGHT.whole)(begun))),
    ("whole one block short", completing(|begun| begun.blocks == (1 << begun.fraction) - 1)),
    ("whole one block late", completing(|begun| begun.blocks == (1 << begun.fraction) + 1)),
    ("whole with 8 blocks", completing(|begun| begun.blocks == 8)),
    ("whole with 192 bytes", completing(|begun| begun.bytes.len() == ROOM)),
    ("one packet of a frame given", giving(|kept, _| kept.of_frame == 0)),
    ("repeated packet not given", giving(|kept, begun| kept.given != Some(begun.count))),
    ("stamp by the frame's first block", stamping(|sent, _| first_quadlet(payload(sent)))),
    (
        "stamp by the frame's first start",
        stamping(|sent, _| {
            let before = usize::from(sent.dbc().wrapping_neg()) % (1 << sent.fraction());
            first_quadlet(payload(sent).get(before * sent.block()..).unwrap_or(&[]))
        }),
    ),
    (
        "stamp by the last block",
        stamping(|sent, bytes| first_quadlet(&bytes[bytes.len() - sent.block()..])),
    ),
    ("stamp by the AVTP timestamp", stamping(|sent, _| sent.number(30))),
    ("stamp in the other order", stamping(|_, bytes| first_quadlet(bytes).swap_bytes())),
    ("drop at the end", Rules { when_unfinished: [1, 0], ..RIGHT }),
];

/// Adds what is counted for something.
fn add(kept: &mut Kept, [dropped, passed]: [usize; 2]) {
    kept.dropped += dropped;
    kept.passed += passed;
}

impl Rules {
    /// Drops the packet begun, if there is one, and answers whether there was.
    fn drop(&self, kept: &mut Kept) -> bool {
        let begun = kept.begun.take();
        if let Some(begun) = &begun {
            add(kept, (self.when_dropped)(begun));
        }
        begun.is_some()
    }

    /// Makes of a block a part of a packet, or counts it.
    fn take_block(&self, kept: &mut Kept, block: &Block) {
        match kept.begun.as_ref() {
            Some(begun) if (self.left_out)(begun, block) => return,
            Some(begun) if (self.goes_on)(begun, block) => {}
            _ => {
                let dropping = self.drop(kept);
                let (begins, counted) = match dropping {
                    true => ((self.begins_dropping)(kept, block), self.when_passed_dropping),
                    false => ((self.begins)(kept, block), self.when_passed),
                };
                if !begins {
                    return add(kept, counted);
                }
                let Block { dbs, fraction, count, .. } = *block;
                kept.fraction = fraction;
                kept.begun = Some(Begun { dbs, fraction, blocks: 0, count, bytes: vec![] });
            }
        }
        if let Some(begun) = &mut kept.begun {
            begun.blocks += 1;
            begun.count = block.count;
            begun.bytes.extend_from_slice(block.bytes);
        }
    }

    /// The packet begun, if it is whole and is given out.
    fn take_whole(&self, kept: &mut Kept, sent: &Sent) -> Option<(u32, Vec<u8>)> {
        let begun = kept.begun.take_if(|begun| (self.whole)(begun))?;
        let gives = (self.gives)(kept, &begun);
        kept.given = Some(begun.count);
        kept.of_frame += 1;
        gives.then(|| ((self.stamp)(sent, &begun.bytes), begun.bytes))
    }

    /// What a frame of the stream in question comes to, or another, given the number that a
    /// reader refuses it with.
    pub fn take_in(&self, kept: &mut Kept, id: u64, sent: &Sent, by_reader: Option<u64>) -> Answer {
        if let Some(number) = by_reader.or_else(|| (self.refused)(sent, id)) {
            if (self.refusal_drops)(number) {
                self.drop(kept);
            }
            return Answer::Refused(number);
        }
        if (self.frame_drops)(kept, sent) {
            self.drop(kept);
        }
        kept.last = Some((sent.sequence(), sent.mr(), sent.format()[0]));
        kept.of_frame = 0;
        let mut packets = vec![];
        for block in blocks(sent, (self.data)(sent), self.count) {
            self.take_block(kept, &block);
            if let Some((stamp, bytes)) = self.take_whole(kept, sent) {
                packets.push((block.place + 1, stamp, bytes));
            }
        }
        let unfinished = kept.begun.as_ref().map_or(0, |begun| begun.bytes.len());
        Answer::TakenIn { packets, dropped: kept.dropped, passed: kept.passed, unfinished }
    }

    /// The counts at the end.
    pub fn end(&self, mut kept: Kept) -> [usize; 2] {
        if kept.begun.is_some() {
            add(&mut kept, self.when_unfinished);
        }
        [kept.dropped, kept.passed]
    }
}

/// The whole blocks of a frame in so many bytes, each with its count.
fn blocks<'a>(sent: &Sent<'a>, data: usize, count: fn(&Sent, usize) -> usize) -> Vec<Block<'a>> {
    let [_, dbs, fraction, _] = sent.format();
    let of_block = |(place, bytes)| {
        let count = count(sent, place);
        Block { dbs, fraction, place, count, bytes }
    };
    sent.frame[50..50 + data].chunks_exact(sent.block()).enumerate().map(of_block).collect()
}

/// The whole blocks of a frame that is taken in, each with its count.
pub fn blocks_of<'a>(sent: &Sent<'a>) -> Vec<Block<'a>> {
    blocks(sent, (RIGHT.data)(sent), RIGHT.count)
}

/// The right assembler and the faulty ones.
pub fn assemblers() -> impl Iterator<Item = &'static Rules> {
    std::iter::once(&RIGHT).chain(FAULTY_ASSEMBLERS.iter().map(|(_, rules)| rules))
}
