//! The rules about tags (request #108), and readers that have one of them wrong.
//!
//! The rules are put down here by themselves, over the bytes of frames, and share nothing
//! with the rooms of frames and streams, so that what a frame tells from a faulty reader is
//! told by another hand. They begin at the number 12: what is wrong before the tag is none of
//! theirs, and neither is which streams are admitted.

/// A frame of at least 42 bytes, and what its tag is taken for.
pub struct Sent<'a> {
    pub frame: &'a [u8],
    pub tag: u8,
}

impl Sent<'_> {
    /// A byte of the frame, or 0 after its end.
    fn byte(&self, at: usize) -> u8 {
        self.frame.get(at).copied().unwrap_or(0)
    }

    /// Four bytes as a number.
    pub fn number(&self, at: usize) -> u32 {
        (0..4).fold(0, |number, byte| number << 8 | u32::from(self.byte(at + byte)))
    }

    fn mr(&self) -> bool {
        self.byte(19) & 8 != 0
    }

    pub fn tv(&self) -> bool {
        self.byte(19) & 1 != 0
    }

    fn sequence(&self) -> u8 {
        self.byte(20)
    }

    fn timestamp(&self) -> u32 {
        self.number(30)
    }

    /// The stream_data_length.
    pub fn length(&self) -> usize {
        usize::from(self.byte(38)) << 8 | usize::from(self.byte(39))
    }

    /// What is DBS with tag 1, as the bytes of a block.
    fn block(&self) -> usize {
        match self.byte(43) {
            0 => 1024,
            dbs => 4 * usize::from(dbs),
        }
    }

    /// What is FN with tag 1.
    pub fn fraction(&self) -> u8 {
        self.byte(44) >> 6
    }

    /// What is QPC with tag 1.
    fn qpc(&self) -> u8 {
        self.byte(44) >> 3 & 7
    }

    /// What is SPH with tag 1.
    pub fn sph(&self) -> u8 {
        self.byte(44) >> 2 & 1
    }

    /// What is DBC with tag 1.
    pub fn dbc(&self) -> u8 {
        self.byte(45)
    }

    /// What are FMT, DBS, FN and SPH with tag 1.
    pub fn format(&self) -> [u8; 4] {
        [self.byte(46) & 0x3F, self.byte(43), self.fraction(), self.sph()]
    }

    /// What are whole blocks with tag 1.
    fn blocks(&self) -> u8 {
        (self.length().saturating_sub(8) / self.block()) as u8
    }

    /// The number that the frame is refused with if it has tag 1.
    pub fn cip_number(&self) -> Option<u64> {
        match self.length() {
            ..8 => Some(13),
            _ if self.qpc() != 0 => Some(16),
            length if (length - 8) % self.block() != 0 => Some(14),
            _ => None,
        }
    }
}

/// What a reader keeps of a stream.
#[derive(Clone, Copy)]
pub struct Kept {
    seen: bool,
    sequence: u8,
    mr: bool,
    /// The last frame's tag.
    pub tag: Option<u8>,
    /// The block count expected.
    pub count: Option<u8>,
    /// The format of the last frame of tag 1.
    pub format: [u8; 4],
}

/// What is rightly kept of a stream that is newly admitted.
pub const NEW: Kept =
    Kept { seen: false, sequence: 0, mr: false, tag: None, count: None, format: [0; 4] };

/// What a reader makes of a frame.
#[derive(Clone, Copy, Debug, PartialEq, Eq)]
pub enum Answer {
    Refused(u64),
    Listed {
        sequence: bool,
        dbc: &'static str,
        format: bool,
        mr: bool,
        /// The stamp, which isn't looked at with tag 1.
        stamp: Option<u32>,
    },
}

/// The rules about tags, each of which a reader may have wrong.
#[derive(Clone, Copy)]
pub struct Rules {
    /// What a tag is taken for, unless it is refused.
    tag: fn(u8) -> Option<u8>,
    /// What a frame of tag 0 is refused with.
    refused: fn(&Sent) -> Option<u64>,
    /// The stamp of tag 0.
    stamp: fn(&Sent) -> Option<u32>,
    /// What a frame is judged on, given what is kept of its own stream and of that of the
    /// last accepted frame.
    judged_on: fn(Kept, Kept) -> Kept,
    sequence: fn(&Kept, &Sent) -> bool,
    dbc: fn(&Kept, &Sent) -> &'static str,
    format: fn(&Kept, &Sent) -> bool,
    mr: fn(&Kept, &Sent) -> bool,
    /// What is kept after a frame.
    after_tag_0: fn(Kept, &Sent) -> Kept,
    after_tag_1: fn(Kept, &Sent) -> Kept,
    after_refusal: fn(Kept, &Sent) -> Kept,
    /// What is kept of a stream that is newly admitted.
    pub admitted: Kept,
}

/// The rules as the papers have them.
const RIGHT: Rules = Rules {
    tag: |tag| (tag <= 1).then_some(tag),
    refused: |_| None,
    stamp: |sent| sent.tv().then_some(sent.timestamp()),
    judged_on: |own, _| own,
    sequence: |kept, sent| kept.seen && sent.sequence() != kept.sequence.wrapping_add(1),
    dbc: |kept, sent| match (sent.tag, kept.count) {
        (0, _) => "none",
        (_, Some(count)) if kept.seen && count != sent.dbc() => "break",
        _ => "ok",
    },
    format: |kept, sent| match kept.tag {
        None => false,
        Some(tag) if tag != sent.tag => true,
        Some(tag) => tag == 1 && sent.format() != kept.format,
    },
    mr: |kept, sent| kept.seen && sent.mr() != kept.mr,
    after_tag_0: |kept, sent| Kept {
        seen: true,
        sequence: sent.sequence(),
        mr: sent.mr(),
        tag: Some(0),
        ..kept
    },
    after_tag_1: |_, sent| Kept {
        seen: true,
        sequence: sent.sequence(),
        mr: sent.mr(),
        tag: Some(1),
        count: Some(sent.dbc().wrapping_add(sent.blocks())),
        format: sent.format(),
    },
    after_refusal: |kept, _| kept,
    admitted: NEW,
};

/// Rules that keep something else after tag 0.
const fn keeping(after_tag_0: fn(Kept, &Sent) -> Kept) -> Rules {
    Rules { after_tag_0, ..RIGHT }
}

/// What is kept after tag 0, but with this block count.
fn with_count(kept: Kept, sent: &Sent, count: Option<u8>) -> Kept {
    Kept { count, ..(RIGHT.after_tag_0)(kept, sent) }
}

/// What is kept after tag 0, but with the block count moved on.
fn moved(kept: Kept, sent: &Sent, by: usize) -> Kept {
    with_count(kept, sent, kept.count.map(|count| count.wrapping_add(by as u8)))
}

/// Rules that raise the format flag otherwise.
const fn flagging(format: fn(&Kept, &Sent) -> bool) -> Rules {
    Rules { format, ..RIGHT }
}

/// Rules that list `dbc` otherwise.
const fn listing(dbc: fn(&Kept, &Sent) -> &'static str) -> Rules {
    Rules { dbc, ..RIGHT }
}

/// Rules that refuse a frame of tag 0.
const fn refusing(refused: fn(&Sent) -> Option<u64>) -> Rules {
    Rules { refused, ..RIGHT }
}

/// Rules that take another stamp for that of tag 0.
const fn stamping(stamp: fn(&Sent) -> Option<u32>) -> Rules {
    Rules { stamp, ..RIGHT }
}

/// Rules that take a tag for another.
const fn tagging(tag: fn(u8) -> Option<u8>) -> Rules {
    Rules { tag, ..RIGHT }
}

/// Whether the block count is another than `dbc`, as a listing has it.
fn broken(kept: &Kept, dbc: u8) -> &'static str {
    match kept.count {
        Some(count) if count != dbc => "break",
        _ => "ok",
    }
}

/// Readers with one rule wrong, each after the name of its fault.
pub const FAULTY_READERS: &[(&str, Rules)] = &[
    ("12 for tag 0", tagging(|tag| (tag == 1).then_some(1))),
    ("tag 2 as 0", tagging(|tag| [Some(0), Some(1), Some(0), None][usize::from(tag)])),
    ("tag 2 as 1", tagging(|tag| [Some(0), Some(1), Some(1), None][usize::from(tag)])),
    ("tag 3 as 0", tagging(|tag| [Some(0), Some(1), None, Some(0)][usize::from(tag)])),
    ("tag 3 as 1", tagging(|tag| [Some(0), Some(1), None, Some(1)][usize::from(tag)])),
    ("13 for tag 0", refusing(|sent| (sent.length() < 8).then_some(13))),
    ("13 for tag 0 without data", refusing(|sent| (sent.length() == 0).then_some(13))),
    ("16 for tag 0", refusing(|sent| (sent.length() >= 8 && sent.qpc() != 0).then_some(16))),
    ("14 for tag 0", refusing(|sent| sent.cip_number().filter(|&number| number == 14))),
    ("14 for tag 0 by quadlets", refusing(|sent| (sent.length() % 4 != 0).then_some(14))),
    ("14 for tag 0 by DBS 0", refusing(|sent| (sent.length() % 1024 != 0).then_some(14))),
    ("2 for tag 0 over 1468", refusing(|sent| (sent.length() > 1468).then_some(2))),
    ("no stamp for tag 0", stamping(|_| None)),
    ("tv not read for tag 0", stamping(|sent| Some(sent.timestamp()))),
    (
        "SPH read for tag 0",
        stamping(|sent| match (sent.length(), sent.sph()) {
            (12.., 1) => Some(sent.number(50)),
            (8..12, 1) => None,
            _ => (RIGHT.stamp)(sent),
        }),
    ),
    (
        "stamp of tag 0 in its payload",
        stamping(|sent| (sent.length() >= 4).then_some(sent.number(42))),
    ),
    (
        "tag of any stream",
        Rules { judged_on: |own, last| Kept { tag: own.tag.and(last.tag), ..own }, ..RIGHT },
    ),
    (
        "count of any stream",
        Rules { judged_on: |own, last| Kept { count: own.count.and(last.count), ..own }, ..RIGHT },
    ),
    (
        "sequence not judged at tag 0",
        Rules { sequence: |kept, sent| sent.tag == 1 && (RIGHT.sequence)(kept, sent), ..RIGHT },
    ),
    (
        "sequence not judged after tag 0",
        Rules {
            sequence: |kept, sent| kept.tag == Some(1) && (RIGHT.sequence)(kept, sent),
            ..RIGHT
        },
    ),
    (
        "sequence not kept at tag 0",
        keeping(|kept, sent| Kept { sequence: kept.sequence, ..(RIGHT.after_tag_0)(kept, sent) }),
    ),
    (
        "mr not judged at tag 0",
        Rules { mr: |kept, sent| sent.tag == 1 && (RIGHT.mr)(kept, sent), ..RIGHT },
    ),
    (
        "mr not judged after tag 0",
        Rules { mr: |kept, sent| kept.tag == Some(1) && (RIGHT.mr)(kept, sent), ..RIGHT },
    ),
    (
        "mr not kept at tag 0",
        keeping(|kept, sent| Kept { mr: kept.mr, ..(RIGHT.after_tag_0)(kept, sent) }),
    ),
    (
        "tag 0 not seen",
        keeping(|kept, sent| Kept { seen: kept.seen, ..(RIGHT.after_tag_0)(kept, sent) }),
    ),
    (
        "tag 0 not kept",
        keeping(|kept, sent| Kept { tag: kept.tag, ..(RIGHT.after_tag_0)(kept, sent) }),
    ),
    (
        "tag 1 not kept after 0",
        Rules {
            after_tag_1: |kept, sent| Kept {
                tag: kept.tag.or(Some(1)),
                ..(RIGHT.after_tag_1)(kept, sent)
            },
            ..RIGHT
        },
    ),
    (
        "dbc=ok for tag 0",
        listing(|kept, sent| match sent.tag {
            0 => "ok",
            _ => (RIGHT.dbc)(kept, sent),
        }),
    ),
    (
        "dbc=ok for tag 0 first",
        listing(|kept, sent| match (sent.tag, kept.seen) {
            (0, false) => "ok",
            _ => (RIGHT.dbc)(kept, sent),
        }),
    ),
    ("dbc of tag 0 by its byte", listing(|kept, sent| broken(kept, sent.dbc()))),
    (
        "dbc of tag 0 as 0",
        listing(|kept, sent| broken(kept, if sent.tag == 0 { 0 } else { sent.dbc() })),
    ),
    (
        "no count as 0",
        listing(|kept, sent| match (sent.tag, kept.seen, kept.count) {
            (1, true, None) if sent.dbc() != 0 => "break",
            _ => (RIGHT.dbc)(kept, sent),
        }),
    ),
    (
        "no count as another",
        listing(|kept, sent| match (sent.tag, kept.seen, kept.count) {
            (1, true, None) => "break",
            _ => (RIGHT.dbc)(kept, sent),
        }),
    ),
    (
        "no count as none",
        listing(|kept, sent| match (sent.tag, kept.seen, kept.count) {
            (1, true, None) => "none",
            _ => (RIGHT.dbc)(kept, sent),
        }),
    ),
    (
        "count not judged after tag 0",
        listing(|kept, sent| match (kept.tag, sent.tag) {
            (Some(0), 1) => "ok",
            _ => (RIGHT.dbc)(kept, sent),
        }),
    ),
    ("count absent after tag 0", keeping(|kept, sent| with_count(kept, sent, None))),
    ("count 0 after tag 0", keeping(|kept, sent| with_count(kept, sent, Some(0)))),
    ("count of tag 0 by its byte", keeping(|kept, sent| with_count(kept, sent, Some(sent.dbc())))),
    (
        "count of tag 0 by its byte and blocks",
        keeping(|kept, sent| with_count(kept, sent, Some(sent.dbc().wrapping_add(sent.blocks())))),
    ),
    (
        "count of tag 0 by DBS 0",
        keeping(|kept, sent| with_count(kept, sent, Some((sent.length() / 1024) as u8))),
    ),
    ("count moved by 1 at tag 0", keeping(|kept, sent| moved(kept, sent, 1))),
    (
        "count moved by DBS 0 at tag 0",
        keeping(|kept, sent| moved(kept, sent, sent.length() / 1024)),
    ),
    (
        "count moved by blocks at tag 0",
        keeping(|kept, sent| moved(kept, sent, usize::from(sent.blocks()))),
    ),
    (
        "count moved by quadlets at tag 0",
        keeping(|kept, sent| moved(kept, sent, sent.length() / 4)),
    ),
    (
        "format flag of tags 0 0",
        flagging(|kept, sent| kept.tag == Some(0) || (RIGHT.format)(kept, sent)),
    ),
    (
        "format flag of tags 0 0 by bytes",
        Rules {
            format: |kept, sent| {
                kept.seen && sent.format() != kept.format || (RIGHT.format)(kept, sent)
            },
            after_tag_0: |kept, sent| Kept {
                format: sent.format(),
                ..(RIGHT.after_tag_0)(kept, sent)
            },
            ..RIGHT
        },
    ),
    (
        "no format flag of tags 0 1",
        flagging(|kept, sent| kept.tag != Some(0) && (RIGHT.format)(kept, sent)),
    ),
    (
        "no format flag of tags 1 0",
        flagging(|kept, sent| sent.tag != 0 && (RIGHT.format)(kept, sent)),
    ),
    (
        "format flag of tags 0 1 by the fields kept",
        flagging(|kept, sent| match (kept.tag, sent.tag) {
            (Some(0), 1) => sent.format() != kept.format,
            _ => (RIGHT.format)(kept, sent),
        }),
    ),
    (
        "format flag by fields that are 0 with tag 0",
        flagging(|kept, sent| {
            let of = |tag, format: [u8; 4]| if tag == 0 { [0; 4] } else { format };
            kept.tag.is_some_and(|tag| of(tag, kept.format) != of(sent.tag, sent.format()))
        }),
    ),
    (
        "format flag by the tag alone",
        flagging(|kept, sent| kept.tag.is_some_and(|tag| tag != sent.tag)),
    ),
    ("format flag of tag 1 first", Rules { admitted: Kept { tag: Some(0), ..NEW }, ..RIGHT }),
    (
        "format flag of tag 0 first",
        flagging(|kept, sent| !kept.seen && sent.tag == 0 || (RIGHT.format)(kept, sent)),
    ),
    (
        "tag of a refused frame",
        Rules { after_refusal: |kept, sent| Kept { tag: Some(sent.tag), ..kept }, ..RIGHT },
    ),
    (
        "count absent after a refused frame",
        Rules { after_refusal: |kept, _| Kept { count: None, ..kept }, ..RIGHT },
    ),
];

impl Rules {
    /// The number, of those from 12 on, that a frame is refused with if its stream is
    /// admitted; and the frame by the tag that it is taken for.
    pub fn number<'a>(&self, frame: &'a [u8]) -> (Option<u64>, Sent<'a>) {
        let sent = |tag| Sent { frame, tag };
        let tag = frame[40] >> 6;
        match (self.tag)(tag) {
            None => (Some(12), sent(tag)),
            Some(0) => ((self.refused)(&sent(0)), sent(0)),
            Some(tag) => (sent(tag).cip_number(), sent(tag)),
        }
    }

    /// What a frame of an admitted stream is judged to be; brings up to date what is kept
    /// of the stream, and of the last accepted frame's.
    pub fn judge(&self, own: &mut Kept, last: &mut Kept, frame: &[u8]) -> Answer {
        let (number, sent) = self.number(frame);
        if let Some(number) = number {
            *own = (self.after_refusal)(*own, &sent);
            return Answer::Refused(number);
        }
        let kept = &(self.judged_on)(*own, *last);
        let answer = Answer::Listed {
            sequence: (self.sequence)(kept, &sent),
            dbc: (self.dbc)(kept, &sent),
            format: (self.format)(kept, &sent),
            mr: (self.mr)(kept, &sent),
            stamp: if sent.tag == 0 { (self.stamp)(&sent) } else { None },
        };
        let after = if sent.tag == 0 { self.after_tag_0 } else { self.after_tag_1 };
        *own = after(*own, &sent);
        *last = *own;
        answer
    }
}

/// The right reader and the faulty ones.
pub fn readers() -> impl Iterator<Item = &'static Rules> {
    std::iter::once(&RIGHT).chain(FAULTY_READERS.iter().map(|(_, rules)| rules))
}
