//! Cases of tags (request #108).
//!
//! A frame of tag 0 that is listed as one is some of these:
//!
//! - `tag=0 length 0`, and the same of `1`, `2`, `3`, `4`, `8`, `1024` and `1476`, and of
//!   `under 1024` and `over 1024` for any other: its stream_data_length.
//! - `tag=0 frame of 42 bytes`, `tag=0 padding`: there is nothing after the headers, or
//!   more than stream_data_length says.
//! - `tag=0, for tag 1 a 13`, and the same of `16` and `14`, or `tag=0, for tag 1 sound`:
//!   what its bytes would be with tag 1.
//! - `tag=0 sph=1, tv=0` and `tag=0 sph=1, tv=1`: what would be SPH is 1.
//! - `tag=0 fn above 0`: what would be FN isn't 0.
//! - `tag=0 dbc expected` and `tag=0 dbc another`: what would be DBC lies so to the block
//!   count expected.
//! - `tag=0 format kept` and `tag=0 format another`: what would be the four format fields
//!   lies so to those of the last tag 1 frame.
//! - `tag=0 time=late`, and the same of every other kind but cut.
//!
//! One with tag 1 after tag 0 is some of these:
//!
//! - `tags 0 1, format kept`, `tags 0 1, format another` and `tags 0 1, no format`: how the
//!   format lies to that of the last tag 1 frame.
//! - `tags 0 1, count goes on` and `tags 0 1, count broken`, after one tag 0 frame, and the
//!   same of `tags 0 0 1` after several.
//! - `tags 0 1, no count, DBC 0` and `tags 0 1, no count, DBC above 0`: there was no tag 1
//!   frame.
//! - `tags 0 1, format all 0`: the four fields are, whatever came before.
//!
//! Any that is listed as one may be some of these:
//!
//! - `tags 1 0 seq=break`, and the same of `0 1` and `0 0`, of `seq=ok`, `mr=ok` and
//!   `mr=change`: the tags of the frame before and of this one, and what is listed.
//! - `tag=0 first`, `tag=1 first`: the first after the stream's admission.
//! - `tags mixed with no flag but format`: the stream's twentieth since admission, of which
//!   at least five have each tag, and none raised a flag but format.
//! - `tags 0 and 1 by turns`: the last twelve are of two streams by turns, the one with
//!   tag 0 and the other with tag 1.
//!
//! A frame that is refused is one of these:
//!
//! - `tag=0 refused 11`, and the same of each number from 2 on, and of `tag=2 or 3`.
//! - `tag=2 refused 12, for tag 1 a 13`, and the same of `16`, `14` and `15`, and of `for tag
//!   1 sound`; and all of these of `tag=3`.
//! - `tag=0 refused 15, for tag 1 a 13`, and the same of `16`, `14` and `15`.
//!
//! The end of a capture may be one of these:
//!
//! - `tag=1 in all frames`, `tag=0 in all frames`, `tags 0 and 1 in accepted frames`.
//!
//! A frame may be some of these too, each once in a capture, since that reader keeps other
//! records from then on:
//!
//! - `tag told from 12 for tag 0`, and so on: a reader with this fault, of those in
//!   `FAULTY_READERS`, would list the frame otherwise.
//!
//! It is told here by the frames' bytes and by the rules of `tag_rules.rs`, and not by what
//! the rooms of frames and streams make of a tag; the other rooms only say what is wrong
//! before the tag, and which streams are admitted. A frame that is listed otherwise than by
//! those rules is `tag judged otherwise`, which isn't to come up.

use crate::capture::{parse_record, CaptureRecord};
use crate::frame::Tag;
use crate::outcome::Outcome;
use crate::presentation::TimeKind;
use crate::refusal::Refusal;
use crate::table::Reception;
use crate::tag_rules::{readers, Answer, Kept, Sent, FAULTY_READERS, NEW};
use std::collections::BTreeMap;

/// An admitted stream.
struct Stream {
    /// What each reader keeps, the right one first.
    kept: Vec<Kept>,
    /// Accepted frames of tag 0 and of tag 1.
    frames: [u32; 2],
    /// Those of tag 0 since the last of tag 1.
    bare: u32,
    /// Whether a flag other than format was raised.
    flagged: bool,
}

/// The last accepted frames of a capture, as far as they are of two streams by turns, the
/// one with tag 0 and the other with tag 1.
#[derive(Default)]
struct Turns {
    /// The stream and the tag of the last frame, and of the one before it.
    last: [Option<(u64, u8)>; 2],
    length: u32,
}

impl Turns {
    /// Takes in an accepted frame, and answers whether it is the twelfth.
    fn twelfth(&mut self, id: u64, tag: u8) -> bool {
        let [last, before] = self.last;
        let other = last.is_some_and(|(last_id, last_tag)| last_id != id && last_tag != tag);
        self.length = match other {
            true if before == Some((id, tag)) => self.length + 1,
            true => 2,
            false => 1,
        };
        self.last = [Some((id, tag)), last];
        self.length == 12
    }
}

/// The tags of a capture's streams, as the records so far give them.
pub struct Tags {
    streams: BTreeMap<u64, Stream>,
    /// What each reader keeps of the last accepted frame's stream.
    last: Vec<Kept>,
    /// Whether each faulty reader was told from the right one.
    told: Vec<bool>,
    turns: Turns,
    /// Whether there were frames of each tag, and accepted ones of tags 0 and 1.
    frames: [bool; 4],
    accepted: [bool; 2],
}

/// Whether a frame is listed as it is answered.
fn agrees(answer: Answer, arrival: u64, outcome: &Result<Outcome, Refusal>) -> bool {
    match (answer, outcome) {
        (Answer::Refused(number), Err(refusal)) => number == refusal.number(),
        (answer, Ok(Outcome::Frame(Reception { frame, flags, presentation }))) => {
            let tag_0 = frame.tag == Tag::NoCip;
            let dbc = match flags.block {
                false if tag_0 => "none",
                false => "ok",
                true => "break",
            };
            let stamped = presentation.kind != TimeKind::None;
            let stamp = (arrival as u32).wrapping_add_signed(presentation.offset);
            let stamp = Some(stamp).filter(|_| tag_0 && stamped);
            let (sequence, format, mr) = (flags.sequence, flags.format, flags.mr);
            answer == Answer::Listed { sequence, dbc, format, mr, stamp }
        }
        _ => false,
    }
}

/// What a frame would be with tag 1.
fn for_tag_1(sent: &Sent, admitted: bool) -> String {
    match sent.cip_number() {
        Some(number) => format!("for tag 1 a {number}"),
        None if admitted => "for tag 1 sound".into(),
        None => "for tag 1 a 15".into(),
    }
}

/// What is so of a frame of tag 0 by itself, or beside what was kept of its stream.
fn tag_0_cases(kept: &Kept, sent: &Sent, kind: TimeKind) -> Vec<String> {
    let length = sent.length();
    let mut cases = vec![
        match length {
            0..=4 | 8 | 1024 | 1476 => format!("length {length}"),
            ..1024 => "length under 1024".into(),
            _ => "length over 1024".into(),
        },
        format!("time={}", String::from_utf8_lossy(kind.name())),
    ];
    if sent.frame.len() == 42 {
        cases.push("frame of 42 bytes".into());
    }
    if sent.frame.len() > 42 + length {
        cases.push("padding".into());
    }
    if length >= 8 {
        if sent.sph() == 1 {
            cases.push(format!("sph=1, tv={}", u8::from(sent.tv())));
        }
        if sent.fraction() > 0 {
            cases.push("fn above 0".into());
        }
        if let Some(count) = kept.count {
            let word = |same| if same { "expected" } else { "another" };
            cases.push(format!("dbc {}", word(sent.dbc() == count)));
            let word = |same| if same { "kept" } else { "another" };
            cases.push(format!("format {}", word(sent.format() == kept.format)));
        }
    }
    let mut cases: Vec<String> = cases.iter().map(|case| format!("tag=0 {case}")).collect();
    cases.push(format!("tag=0, {}", for_tag_1(sent, true)));
    cases
}

/// What is so of a frame of tag 1 after one of tag 0, or after several.
fn back_to_tag_1(kept: &Kept, sent: &Sent, several: bool) -> Vec<String> {
    let Some(count) = kept.count else {
        let dbc = if sent.dbc() == 0 { "DBC 0" } else { "DBC above 0" };
        return vec!["tags 0 1, no format".into(), format!("tags 0 1, no count, {dbc}")];
    };
    let format = if sent.format() == kept.format { "kept" } else { "another" };
    let tags = if several { "tags 0 0 1" } else { "tags 0 1" };
    let count = if sent.dbc() == count { "goes on" } else { "broken" };
    vec![format!("tags 0 1, format {format}"), format!("{tags}, count {count}")]
}

impl Stream {
    /// Takes in a frame that is listed as one, and says what it is a case of. What was kept
    /// before it is `kept`.
    fn accepted(&mut self, kept: &Kept, sent: &Sent, listed: &Reception) -> Vec<String> {
        let tag = sent.tag;
        let mut cases = vec![];
        if tag == 0 {
            cases.extend(tag_0_cases(kept, sent, listed.presentation.kind));
        } else if kept.tag == Some(0) {
            cases.extend(back_to_tag_1(kept, sent, self.bare > 1));
            if sent.format() == [0; 4] {
                cases.push("tags 0 1, format all 0".into());
            }
        }
        match kept.tag {
            Some(1) if tag == 1 => {}
            Some(last) => {
                let seq = if listed.flags.sequence { "break" } else { "ok" };
                let mr = if listed.flags.mr { "change" } else { "ok" };
                cases.push(format!("tags {last} {tag} seq={seq}"));
                cases.push(format!("tags {last} {tag} mr={mr}"));
            }
            None => cases.push(format!("tag={tag} first")),
        }
        self.frames[usize::from(tag)] += 1;
        self.bare = if tag == 0 { self.bare + 1 } else { 0 };
        self.flagged |= listed.flags.sequence || listed.flags.block || listed.flags.mr;
        let [bare, blocks] = self.frames;
        if bare + blocks == 20 && bare >= 5 && blocks >= 5 && !self.flagged {
            cases.push("tags mixed with no flag but format".into());
        }
        cases
    }
}

impl Tags {
    /// No stream is admitted.
    pub fn new() -> Tags {
        Tags {
            streams: BTreeMap::new(),
            last: readers().map(|_| NEW).collect(),
            told: vec![false; FAULTY_READERS.len()],
            turns: Turns::default(),
            frames: [false; 4],
            accepted: [false; 2],
        }
    }

    /// Takes in an admission.
    fn admission(&mut self, id: u64) {
        let kept = readers().map(|rules| rules.admitted).collect();
        self.streams.insert(id, Stream { kept, frames: [0; 2], bare: 0, flagged: false });
    }

    /// What each reader makes of a frame with nothing wrong before its tag.
    fn answers(&mut self, id: u64, frame: &[u8]) -> Vec<Answer> {
        match self.streams.get_mut(&id) {
            Some(stream) => readers()
                .zip(&mut stream.kept)
                .zip(&mut self.last)
                .map(|((rules, own), last)| rules.judge(own, last, frame))
                .collect(),
            None => readers()
                .map(|rules| Answer::Refused(rules.number(frame).0.unwrap_or(15)))
                .collect(),
        }
    }

    /// The faulty readers that are first told by these answers.
    fn first_told(&mut self, answers: &[Answer]) -> Vec<String> {
        let mut cases = vec![];
        let faulty = FAULTY_READERS.iter().zip(&answers[1..]).zip(&mut self.told);
        for (((name, _), answer), told) in faulty {
            if !*told && *answer != answers[0] {
                *told = true;
                cases.push(format!("tag told from {name}"));
            }
        }
        cases
    }

    /// What a frame that is refused is a case of.
    fn refused(&self, id: u64, sent: &Sent, number: u64) -> Vec<String> {
        let tag = sent.tag;
        match (tag, number) {
            (1, _) => vec![],
            (_, 12..) => {
                let with_tag_1 = for_tag_1(sent, self.streams.contains_key(&id));
                vec![format!("tag={tag} refused {number}, {with_tag_1}")]
            }
            (0, _) => vec![format!("tag=0 refused {number}")],
            _ => vec![format!("tag=2 or 3 refused {number}")],
        }
    }

    /// Takes in a frame, and says what it is a case of.
    fn frame(
        &mut self,
        arrival: u64,
        frame: &[u8],
        outcome: &Result<Outcome, Refusal>,
    ) -> Vec<String> {
        if frame.len() < 42 {
            return vec![];
        }
        let tag = frame[40] >> 6;
        self.frames[usize::from(tag)] = true;
        let sent = Sent { frame, tag };
        let id = u64::from(sent.number(22)) << 32 | u64::from(sent.number(26));
        if let Err(refusal) = outcome {
            if refusal.number() < 12 {
                return self.refused(id, &sent, refusal.number());
            }
        }
        let kept = self.streams.get(&id).map_or(NEW, |stream| stream.kept[0]);
        let answers = self.answers(id, frame);
        if !agrees(answers[0], arrival, outcome) {
            return vec!["tag judged otherwise".into()];
        }
        let mut cases = self.first_told(&answers);
        match (outcome, self.streams.get_mut(&id)) {
            (Ok(Outcome::Frame(listed)), Some(stream)) => {
                cases.extend(stream.accepted(&kept, &sent, listed));
                self.accepted[usize::from(tag)] = true;
                if self.turns.twelfth(id, tag) {
                    cases.push("tags 0 and 1 by turns".into());
                }
            }
            (Err(refusal), _) => cases.extend(self.refused(id, &sent, refusal.number())),
            _ => {}
        }
        cases
    }

    /// What the end of the capture is a case of.
    pub fn end_cases(&self) -> Vec<String> {
        let case = match (self.frames, self.accepted) {
            ([false, true, false, false], [_, true]) => "tag=1 in all frames",
            ([true, false, false, false], [true, _]) => "tag=0 in all frames",
            (_, [true, true]) => "tags 0 and 1 in accepted frames",
            _ => return vec![],
        };
        vec![case.into()]
    }
}

/// What a record that comes to `outcome` is a case of. `tags` has the records before it, and
/// takes it in.
pub fn tag_cases(
    tags: &mut Tags,
    record: &[u8],
    outcome: &Result<Outcome, Refusal>,
) -> Vec<String> {
    match (parse_record(record), outcome) {
        (Ok(CaptureRecord::Frame { arrival, frame }), _) => tags.frame(arrival, frame, outcome),
        (Ok(CaptureRecord::Admit { id, .. }), Ok(_)) => {
            tags.admission(id);
            vec![]
        }
        _ => vec![],
    }
}

#[cfg(test)]
mod tests {
    use super::*;
    use crate::outcome::carry_out;
    use crate::samples::{admit_record, frame_record, of_length, sound, stamped, tagged_0, with};
    use crate::table::StreamTable;

    /// What the last of these records is a case of, and then the end of the capture.
    fn all_said(records: &[Vec<u8>]) -> (Vec<String>, Vec<String>) {
        let (mut table, mut tags) = (StreamTable::new(), Tags::new());
        let mut last = vec![];
        for record in records {
            let outcome = carry_out(&mut table, &record[2..]);
            last = tag_cases(&mut tags, &record[2..], &outcome);
        }
        (last, tags.end_cases())
    }

    /// What the last of these frames of stream 1, which is admitted, is a case of, but for
    /// faulty readers.
    fn said(frames: &[Vec<u8>]) -> String {
        let frames = frames.iter().map(|frame| frame_record(0, frame));
        let (mut last, _) = all_said(&[vec![admit_record(1)], frames.collect()].concat());
        last.retain(|case| !case.starts_with("tag told"));
        last.join("; ")
    }

    /// A frame of tag 1 with a block, and one of tag 0.
    fn deck(sequence: u8, dbc: u8) -> Vec<u8> {
        with(with(sound(1, &[0; 4]), 20, sequence), 45, dbc)
    }

    fn camera(sequence: u8, payload: &[u8]) -> Vec<u8> {
        with(tagged_0(1, payload), 20, sequence)
    }

    #[test]
    fn frames_of_tag_0() {
        let first = |payload: &[u8]| said(&[camera(0, payload)]);
        assert_eq!(
            first(&[]),
            "tag=0 length 0; tag=0 time=ahead; tag=0 frame of 42 bytes; \
            tag=0, for tag 1 a 13; tag=0 first"
        );
        for (length, name, with_tag_1) in [
            (4, "4", "a 13"),
            (8, "8", "sound"),
            (9, "under 1024", "a 14"),
            (1024, "1024", "a 14"),
            (1032, "over 1024", "sound"),
            (1476, "1476", "a 14"),
        ] {
            assert_eq!(
                first(&vec![0; length]),
                format!(
                    "tag=0 length {name}; tag=0 time=ahead; tag=0, for tag 1 {with_tag_1}; \
                    tag=0 first"
                )
            );
        }
        let padded = of_length(stamped(camera(0, &[0xFF; 8]), 1 << 31), 7);
        assert_eq!(
            said(&[padded]),
            "tag=0 length under 1024; tag=0 time=unclear; tag=0 padding; \
            tag=0, for tag 1 a 13; tag=0 first"
        );
    }

    #[test]
    fn bytes_that_would_be_a_cip_header() {
        let after = |data: [u8; 8]| said(&[deck(0, 9), with(camera(1, &data), 19, 0x80)]);
        assert_eq!(
            after([0, 1, 0, 10, 0, 0, 0, 0]),
            "tag=0 length 8; tag=0 time=none; tag=0 dbc expected; tag=0 format kept; \
            tag=0, for tag 1 sound; tags 1 0 seq=ok; tags 1 0 mr=ok"
        );
        assert_eq!(
            after([0, 1, 0x5C, 11, 0, 0, 0, 0]),
            "tag=0 length 8; tag=0 time=none; tag=0 sph=1, tv=0; tag=0 fn above 0; \
            tag=0 dbc another; tag=0 format another; tag=0, for tag 1 a 16; \
            tags 1 0 seq=ok; tags 1 0 mr=ok"
        );
    }

    #[test]
    fn frames_of_tag_1_after_tag_0() {
        let bare = camera(1, &[]);
        let rest = "tags 0 1 seq=ok; tags 0 1 mr=ok";
        let after_one = |frame| said(&[deck(0, 9), bare.clone(), frame]);
        assert_eq!(
            after_one(deck(2, 10)),
            format!("tags 0 1, format kept; tags 0 1, count goes on; {rest}")
        );
        assert_eq!(
            after_one(with(deck(2, 9), 46, 1)),
            format!("tags 0 1, format another; tags 0 1, count broken; {rest}")
        );
        assert_eq!(
            said(&[deck(0, 9), bare.clone(), camera(2, &[]), with(deck(4, 10), 19, 0x89)]),
            "tags 0 1, format kept; tags 0 0 1, count goes on; \
            tags 0 1 seq=break; tags 0 1 mr=change"
        );
        let first = |frame| said(&[bare.clone(), frame]);
        assert_eq!(
            first(deck(2, 0)),
            format!("tags 0 1, no format; tags 0 1, no count, DBC 0; {rest}")
        );
        let zeros = with(with(with(sound(1, &[]), 20, 2), 43, 0), 45, 1);
        assert_eq!(
            first(zeros),
            format!(
                "tags 0 1, no format; tags 0 1, no count, DBC above 0; \
                tags 0 1, format all 0; {rest}"
            )
        );
        assert_eq!(said(&[deck(0, 9), deck(1, 10)]), "");
    }

    #[test]
    fn frames_that_are_refused() {
        let one = |frame: Vec<u8>| said(&[frame]);
        assert_eq!(one(with(camera(0, &[]), 12, 0)), "tag=0 refused 3");
        assert_eq!(one(of_length(camera(0, &[]), 1)), "tag=0 refused 11");
        assert_eq!(one(camera(0, &[])[..41].to_vec()), "");
        assert_eq!(one(tagged_0(2, &[0; 8])), "tag=0 refused 15, for tag 1 a 15");
        assert_eq!(one(tagged_0(2, &[0; 9])), "tag=0 refused 15, for tag 1 a 14");
        assert_eq!(one(with(deck(0, 0), 40, 0x80)), "tag=2 refused 12, for tag 1 sound");
        assert_eq!(
            one(with(with(deck(0, 0), 44, 8), 40, 0xC0)),
            "tag=3 refused 12, for tag 1 a 16"
        );
        assert_eq!(one(with(with(deck(0, 0), 19, 1), 40, 0xC0)), "tag=2 or 3 refused 9");
        assert_eq!(one(with(deck(0, 0), 44, 8)), "");
    }

    #[test]
    fn first_frames() {
        assert_eq!(said(&[deck(0, 0)]), "tag=1 first");
        assert!(said(&[camera(0, &[])]).ends_with("; tag=0 first"));
        // Not of the stream that is admitted, and then the second of that one.
        assert_eq!(said(&[sound(2, &[])]), "");
        assert_eq!(said(&[with(deck(0, 0), 40, 0xC0), deck(0, 0)]), "tag=1 first");
        assert!(said(&[deck(0, 0), camera(1, &[])]).ends_with("; tags 1 0 mr=ok"));
    }

    #[test]
    fn streams_over_many_frames() {
        let mixed = |gap: u8| -> Vec<Vec<u8>> {
            let frame = |i: u8| match i % 4 {
                3 => deck(i + gap * (i / 10), i / 4),
                _ => camera(i + gap * (i / 10), &[]),
            };
            (0..20).map(frame).collect()
        };
        assert!(said(&mixed(0)).ends_with("tags mixed with no flag but format"));
        assert!(!said(&mixed(1)).contains("mixed"));
        let by_turns = |frames: u8| {
            let frame = |i: u8| match i % 2 {
                0 => frame_record(0, &deck(i / 2, i / 2)),
                _ => frame_record(0, &with(tagged_0(2, &[]), 20, i / 2)),
            };
            let records =
                [vec![admit_record(1), admit_record(2)], (0..frames).map(frame).collect()];
            all_said(&records.concat()).0
        };
        for (frames, said) in [(11, false), (12, true), (13, false)] {
            assert_eq!(by_turns(frames).contains(&"tags 0 and 1 by turns".into()), said);
        }
    }

    #[test]
    fn ends_of_captures() {
        let (one, other) = (frame_record(0, &deck(0, 0)), frame_record(0, &camera(1, &[])));
        let tag_2 = frame_record(0, &with(deck(0, 0), 40, 0x80));
        let end =
            |frames: &[Vec<u8>]| all_said(&[&[admit_record(1)], frames].concat()).1.join("; ");
        assert_eq!(end(&[]), "");
        assert_eq!(end(&[one.clone()]), "tag=1 in all frames");
        assert_eq!(end(&[other.clone()]), "tag=0 in all frames");
        assert_eq!(end(&[one.clone(), tag_2.clone()]), "");
        assert_eq!(end(&[one, tag_2, other]), "tags 0 and 1 in accepted frames");
    }

    #[test]
    fn each_faulty_reader_is_told_once() {
        let bare = |sequence, payload: &[u8]| camera(sequence, payload);
        let like = [0, 1, 0x84, 77, 0, 0, 0, 0, 1, 2, 3, 4];
        let zeros = |sequence, dbc| with(with(with(sound(1, &[]), 43, 0), 20, sequence), 45, dbc);
        let frames = [
            with(deck(0, 5), 40, 0x80),
            bare(0, &[]),
            bare(1, &like),
            with(bare(2, &like), 19, 0x80),
            with(bare(3, &[0xFF; 1476]), 19, 0x89),
            deck(4, 5),
            with(deck(5, 6), 40, 0xC0),
            with(deck(5, 6), 40, 0x80),
            deck(5, 6),
            bare(7, &[0; 1027]),
            deck(8, 7),
            with(bare(9, &[0; 16]), 19, 0x89),
            deck(10, 8),
            bare(11, &[0; 3]),
            with(deck(12, 8), 40, 0x80),
            deck(13, 8),
            with(deck(14, 9), 46, 1),
            bare(15, &[0; 9]),
            zeros(16, 10),
            bare(17, &[0; 1036]),
            zeros(18, 10),
        ];
        let frames = frames.iter().map(|frame| frame_record(0, frame)).collect();
        let other = frame_record(0, &tagged_0(2, &[]));
        let beside_another = vec![
            frame_record(0, &deck(19, 10)),
            admit_record(2),
            other.clone(),
            frame_record(0, &with(sound(2, &[]), 45, 100)),
            frame_record(0, &deck(20, 11)),
            other,
            frame_record(0, &deck(21, 12)),
            admit_record(3),
            frame_record(0, &sound(3, &[])),
        ];
        let records = [vec![admit_record(1)], frames, beside_another].concat();
        let (mut table, mut tags) = (StreamTable::new(), Tags::new());
        let mut told = vec![];
        for record in &records {
            let outcome = carry_out(&mut table, &record[2..]);
            told.extend(tag_cases(&mut tags, &record[2..], &outcome));
        }
        told.retain(|case| case.starts_with("tag told from "));
        told.sort();
        let mut names: Vec<String> =
            FAULTY_READERS.iter().map(|(name, _)| format!("tag told from {name}")).collect();
        names.sort();
        assert_eq!(told, names);
    }
}
