//! Cases of transit limits (request #107).
//!
//! A record that admits a stream by kind 5 is some of these:
//!
//! - `limit=0 admitted`, and the same of `1`, `2147483646`, `2147483647` and `any`
//!   other.
//! - `limit=2147483648 refused`, and the same of `4294967295` and `any` other too large:
//!   nothing else is wrong with the admission.
//! - `limit too large, admitted already`, and the same of `table full` and of `admitted
//!   already, table full`: more than one thing is wrong.
//! - `limit allowed, admitted already`, and so on: only these are wrong.
//! - `limit admitted after one too large`: the stream's last admission was refused for
//!   its limit alone.
//! - `limit allowed in either order`, and the same of `in this order only` and `in the
//!   other order only`: whether its bytes are a limit that is allowed, read as they are
//!   and the other way round, which is another number.
//!
//! One of kind 5 with another length, or of kind 4, is one of these:
//!
//! - `limit record of length 10`, and the same of `2`, `13`, `15` and `any` other.
//! - `limit record of kind 4, length 10`, and the same of `14` and `any` other.
//!
//! A frame that is listed as one and has a stamp, of a stream admitted by kind 5, is one
//! of these, each after its SPH, as in `limit sph=1 d one above, L + d inside`:
//!
//! - `d one above, L + d inside`, and the same of `one below`, `equal`, `further above`
//!   and `further below`, and of `at the largest` and `past 64 bits`: d is 0 or more, and
//!   lies so to its stream's limit.
//! - `-d above, L + d inside`, and the same of `not above` and of `below 0`: d is below 0.
//! - `half a wrap, L + d inside, limit 0`, and the same of `below 0`, and of `limit the
//!   largest` and `limit between`: d is −2,147,483,648.
//!
//! Where L + d isn't outside, one of any stream may be some of these too:
//!
//! - `limit=0 d=1, kind 5`, and the same of each limit and offset in `VALUES`; with the
//!   kind that the stream was admitted by.
//! - `limit told from the first stream's`, and so on: with that limit in place of its
//!   stream's, the kind would be another. `others` says which limits there are.
//!
//! It is told here by the records' bytes, by L and by d, over a table of its own, and not
//! by what the rooms of captures, tables and presentation times make of a limit. A frame
//! that is listed though no stream here is its own is `limit of no stream`, which isn't
//! to come up.

use crate::frame::Frame;
use crate::outcome::Outcome;
use crate::refusal::Refusal;
use std::collections::BTreeSet;

/// The largest limit that is allowed.
const LARGEST: u32 = 2_147_483_647;

/// Places of the table.
const PLACES: usize = 64;

/// The largest time of 64 bits.
const LARGEST_TIME: i128 = u64::MAX as i128;

/// Limits, and offsets that meet them at an edge.
const VALUES: [(u32, i64); 9] = [
    (0, -1),
    (0, 0),
    (0, 1),
    (1, 1),
    (1, 2),
    (2_147_483_646, 2_147_483_646),
    (2_147_483_646, 2_147_483_647),
    (2_147_483_647, 2_147_483_646),
    (2_147_483_647, 2_147_483_647),
];

/// An admitted stream.
struct Stream {
    id: u64,
    /// The kind of the record that admitted it, and the limit there.
    kind: u16,
    limit: u32,
    /// The kind and the limit of its last admission that was refused, since its own.
    refused: Option<(u16, u32)>,
    /// What its last frame was, and the offset of the last that was accepted.
    frame: Option<&'static str>,
    offset: Option<i64>,
}

/// The limits of a capture's streams, as the records so far give them.
#[derive(Default)]
pub struct Limits {
    /// The admitted streams, in the order of their places.
    streams: Vec<Stream>,
    /// Streams that were refused last, for their limit alone.
    too_large: BTreeSet<u64>,
    /// The limit of the stream whose frame was accepted last.
    last_accepted: Option<u32>,
}

/// Whether an offset lies above one of two limits only.
fn tells_apart(offset: i64, limit: u32, other: u32) -> bool {
    (offset > i64::from(limit)) != (offset > i64::from(other))
}

/// How an offset lies to a limit, and the time to the ends of all times.
fn relation(arrival: u64, offset: i64, limit: u32) -> String {
    let place = match i128::from(arrival) + i128::from(offset) {
        ..0 => "below 0",
        LARGEST_TIME => "at the largest",
        0..LARGEST_TIME => "inside",
        _ => "past 64 bits",
    };
    let above = offset.abs() > i64::from(limit);
    match offset {
        -2_147_483_648 => {
            let limit = match limit {
                0 => "0",
                LARGEST => "the largest",
                _ => "between",
            };
            format!("half a wrap, L + d {place}, limit {limit}")
        }
        ..0 => format!("-d {}, L + d {place}", if above { "above" } else { "not above" }),
        _ => {
            let how = match offset - i64::from(limit) {
                0 => "equal",
                1 => "one above",
                -1 => "one below",
                _ if above => "further above",
                _ => "further below",
            };
            format!("d {how}, L + d {place}")
        }
    }
}

/// Whether a frame has a stamp.
fn has_stamp(frame: &Frame) -> bool {
    if !frame.cip.sph {
        return frame.tv;
    }
    let packet = 1 << frame.cip.fraction;
    (0..frame.blocks).any(|block| (u32::from(frame.cip.dbc) + block) % packet == 0)
}

/// What the bytes of a limit are in either order, if that isn't the same.
fn order(limit: u32) -> Option<&'static str> {
    let other = limit.swap_bytes();
    match (limit <= LARGEST, other <= LARGEST) {
        _ if other == limit => None,
        (true, true) => Some("limit allowed in either order"),
        (true, false) => Some("limit allowed in this order only"),
        (false, true) => Some("limit allowed in the other order only"),
        (false, false) => None,
    }
}

/// Whether a limit is allowed.
fn judged(limit: u32) -> &'static str {
    if limit <= LARGEST {
        "allowed"
    } else {
        "too large"
    }
}

/// A limit by its value if this is an edge, or else `any`.
fn named(limit: u32) -> String {
    match limit {
        0 | 1 | 2_147_483_646..=2_147_483_648 | 4_294_967_295 => limit.to_string(),
        _ => "any".into(),
    }
}

impl Limits {
    /// An admitted stream.
    fn stream(&self, id: u64) -> Option<&Stream> {
        self.streams.iter().find(|stream| stream.id == id)
    }

    /// An admitted stream, to take something in.
    fn stream_mut(&mut self, id: u64) -> Option<&mut Stream> {
        self.streams.iter_mut().find(|stream| stream.id == id)
    }

    /// Whether no further stream can be admitted.
    fn full(&self) -> bool {
        self.streams.len() == PLACES
    }

    /// What an admission by kind 5 is a case of.
    fn admission_cases(&self, id: u64, limit: u32) -> Vec<String> {
        let admitted = self.stream(id).is_some();
        let full = self.full();
        let mut cases = vec![match (admitted, full) {
            (true, true) => format!("limit {}, admitted already, table full", judged(limit)),
            (true, false) => format!("limit {}, admitted already", judged(limit)),
            (false, true) => format!("limit {}, table full", judged(limit)),
            (false, false) if limit <= LARGEST => format!("limit={} admitted", named(limit)),
            (false, false) => format!("limit={} refused", named(limit)),
        }];
        cases.extend(order(limit).map(String::from));
        if !admitted && !full && limit <= LARGEST && self.too_large.contains(&id) {
            cases.push("limit admitted after one too large".into());
        }
        cases
    }

    /// Takes in an admission by kind 2 or 5.
    fn admission(&mut self, kind: u16, id: u64, limit: u32) {
        self.too_large.remove(&id);
        if let Some(stream) = self.stream_mut(id) {
            stream.refused = Some((kind, limit));
        } else if !self.full() && limit > LARGEST {
            self.too_large.insert(id);
        } else if !self.full() {
            let stream = Stream { id, kind, limit, refused: None, frame: None, offset: None };
            self.streams.push(stream);
        }
    }

    /// Limits that a faulty reader could take for a stream's own, by their names.
    fn others(&self, stream: &Stream) -> Vec<(String, Option<u32>)> {
        let Stream { kind, limit, .. } = *stream;
        let with_limit = kind == 5;
        let [first, last] = [self.streams.first(), self.streams.last()];
        let reversed = Some(limit.swap_bytes()).filter(|&other| with_limit && other <= LARGEST);
        let mut others = vec![
            (format!("0, kind {kind}"), Some(0)),
            ("the largest".into(), with_limit.then_some(LARGEST)),
            ("its bytes in the other order".into(), reversed),
            ("the first stream's".into(), first.map(|first| first.limit)),
            ("the last admitted stream's".into(), last.map(|last| last.limit)),
            ("that of the frame before".into(), self.last_accepted),
        ];
        if let Some((kind, limit)) = stream.refused {
            let name = format!("a refused admission's, kind {kind}, {}", judged(limit));
            others.push((name, Some(limit)));
        }
        if let Some(frame) = stream.frame {
            others.push((format!("0 after {frame}"), Some(0)));
            others.push((format!("the largest after {frame}"), Some(LARGEST)));
            // No limit is below 0.
            let offset = stream.offset.and_then(|offset| u32::try_from(offset).ok());
            others.push((format!("the offset before, after {frame}"), offset));
        }
        others
    }

    /// What a frame of an admitted stream that has a stamp is a case of.
    fn stamped(&self, stream: &Stream, arrival: u64, offset: i64, sph: bool) -> Vec<String> {
        let Stream { kind, limit, .. } = *stream;
        let mut cases = vec![];
        if kind == 5 {
            let relation = relation(arrival, offset, limit);
            cases.push(format!("limit sph={} {relation}", u8::from(sph)));
        }
        let time = i128::from(arrival) + i128::from(offset);
        if !(0..=LARGEST_TIME).contains(&time) {
            return cases;
        }
        if VALUES.contains(&(limit, offset)) {
            cases.push(format!("limit={limit} d={offset}, kind {kind}"));
        }
        for (name, other) in self.others(stream) {
            if other.is_some_and(|other| tells_apart(offset, limit, other)) {
                cases.push(format!("limit told from {name}"));
            }
        }
        cases
    }

    /// Takes in a frame that is listed as one, and says what it is a case of.
    fn accepted(&mut self, arrival: u64, frame: &Frame, offset: i32) -> Vec<String> {
        let Some(stream) = self.stream(frame.stream_id) else {
            return vec!["limit of no stream".into()];
        };
        let (limit, offset) = (stream.limit, has_stamp(frame).then_some(i64::from(offset)));
        let cases = match offset {
            Some(offset) => self.stamped(stream, arrival, offset, frame.cip.sph),
            None => vec![],
        };
        self.last_accepted = Some(limit);
        self.had_frame(frame.stream_id, "an accepted frame", offset);
        cases
    }

    /// Takes in that a stream, if it is admitted, had a frame.
    fn had_frame(&mut self, id: u64, frame: &'static str, offset: Option<i64>) {
        if let Some(stream) = self.stream_mut(id) {
            stream.frame = Some(frame);
            stream.offset = offset.or(stream.offset);
        }
    }

    /// Takes in the body of a frame's record, and says what it is a case of.
    fn frame(&mut self, body: &[u8], outcome: &Result<Outcome, Refusal>) -> Vec<String> {
        let Some((arrival, frame)) = body.split_first_chunk() else {
            return vec![];
        };
        if let Ok(Outcome::Frame(listed)) = outcome {
            let offset = listed.presentation.offset;
            return self.accepted(u64::from_le_bytes(*arrival), &listed.frame, offset);
        }
        if let Some(id) = frame.get(22..).and_then(|rest| rest.first_chunk()) {
            self.had_frame(u64::from_be_bytes(*id), "a refused frame", None);
        }
        vec![]
    }
}

/// What a record that comes to `outcome` is a case of. `limits` has the records before
/// it, and takes it in.
pub fn limit_cases(
    limits: &mut Limits,
    record: &[u8],
    outcome: &Result<Outcome, Refusal>,
) -> Vec<String> {
    let Some((kind, body)) = record.split_first_chunk() else {
        return vec![];
    };
    let id = body.first_chunk().map_or(0, |id| u64::from_be_bytes(*id));
    match (u16::from_le_bytes(*kind), record.len(), body) {
        (1, ..) => limits.frame(body, outcome),
        (2, 10, _) => {
            limits.admission(2, id, LARGEST);
            vec![]
        }
        (5, 14, &[.., a, b, c, d]) => {
            let limit = u32::from_le_bytes([a, b, c, d]);
            let cases = limits.admission_cases(id, limit);
            limits.admission(5, id, limit);
            cases
        }
        (5, length @ (2 | 10 | 13 | 15), _) => vec![format!("limit record of length {length}")],
        (5, ..) => vec!["limit record of length any".into()],
        (4, length @ (10 | 14), _) => vec![format!("limit record of kind 4, length {length}")],
        (4, ..) => vec!["limit record of kind 4, length any".into()],
        _ => vec![],
    }
}

#[cfg(test)]
mod tests {
    use super::*;
    use crate::outcome::carry_out;
    use crate::samples::{
        admit_record, frame_record, limited_record, record, sound, stamped, with,
    };
    use crate::table::StreamTable;

    /// An arrival far from either end of the times.
    const ARRIVAL: u64 = 1 << 40;

    /// What the last of these records is a case of.
    fn said_last(records: &[Vec<u8>]) -> Vec<String> {
        let (mut table, mut limits) = (StreamTable::new(), Limits::default());
        let mut last = vec![];
        for record in records {
            let outcome = carry_out(&mut table, &record[2..]);
            last = limit_cases(&mut limits, &record[2..], &outcome);
        }
        last
    }

    /// The same, on one line.
    fn said(records: &[Vec<u8>]) -> String {
        said_last(records).join("; ")
    }

    /// A frame of the stream with an offset.
    fn frame(id: u64, offset: i32) -> Vec<u8> {
        frame_record(ARRIVAL, &stamped(sound(id, &[]), offset as u32))
    }

    /// What the limit of the last record's stream is told from.
    fn told_from(records: &[Vec<u8>]) -> String {
        let told = said_last(records)
            .into_iter()
            .filter_map(|case| case.strip_prefix("limit told from ").map(String::from));
        told.collect::<Vec<_>>().join("; ")
    }

    #[test]
    fn admissions() {
        let admits = |limit| said(&[limited_record(1, limit)]);
        assert_eq!(admits(0), "limit=0 admitted");
        assert_eq!(admits(1), "limit=1 admitted; limit allowed in either order");
        assert_eq!(admits(50_000_000), "limit=any admitted; limit allowed in this order only");
        assert_eq!(
            admits(2_147_483_647),
            "limit=2147483647 admitted; limit allowed in this order only"
        );
        assert_eq!(
            admits(2_147_483_648),
            "limit=2147483648 refused; limit allowed in the other order only"
        );
        assert_eq!(admits(2_147_483_777), "limit=any refused");
        assert_eq!(admits(4_294_967_295), "limit=4294967295 refused");
        assert_eq!(said(&[admit_record(1)]), "");
        assert_eq!(
            said(&[limited_record(1, u32::MAX), limited_record(1, 0)]),
            "limit=0 admitted; limit admitted after one too large"
        );
        assert_eq!(
            said(&[limited_record(1, u32::MAX), admit_record(1), limited_record(1, 0)]),
            "limit allowed, admitted already"
        );
    }

    #[test]
    fn admissions_with_two_things_wrong() {
        for (count, allowed, too_large) in [
            (63, "limit=0 admitted", "limit=4294967295 refused"),
            (64, "limit allowed, table full", "limit too large, table full"),
        ] {
            let records: Vec<Vec<u8>> = (0..count).map(admit_record).collect();
            let then = |record| said(&[&records[..], &[record]].concat());
            assert_eq!(then(limited_record(64, 0)), allowed);
            assert_eq!(then(limited_record(64, u32::MAX)), too_large);
            let full = if count == 64 { ", table full" } else { "" };
            let wrong = format!("admitted already{full}");
            assert_eq!(then(limited_record(5, 0)), format!("limit allowed, {wrong}"));
            assert_eq!(then(limited_record(5, u32::MAX)), format!("limit too large, {wrong}"));
        }
    }

    #[test]
    fn other_lengths_and_kinds() {
        let said = |kind, body: usize| said(&[record(kind, &vec![0; body])]);
        for length in [2, 10, 13, 15] {
            assert_eq!(said(5, length - 2), format!("limit record of length {length}"));
        }
        assert_eq!(said(5, 10), "limit record of length any");
        assert_eq!(said(4, 8), "limit record of kind 4, length 10");
        assert_eq!(said(4, 12), "limit record of kind 4, length 14");
        assert_eq!(said(4, 0), "limit record of kind 4, length any");
        assert_eq!(said(2, 12), "");
        assert_eq!(said(3, 12), "");
        assert_eq!(said(1, 0), "");
    }

    #[test]
    fn how_offsets_lie_to_a_limit() {
        for (offset, how) in [
            (9, "d equal"),
            (10, "d one above"),
            (11, "d further above"),
            (8, "d one below"),
            (7, "d further below"),
            (-9, "-d not above"),
            (-10, "-d above"),
        ] {
            assert_eq!(relation(ARRIVAL, offset, 9), format!("{how}, L + d inside"));
        }
        assert_eq!(relation(u64::MAX - 9, 9, 9), "d equal, L + d at the largest");
        assert_eq!(relation(u64::MAX - 9, 10, 9), "d one above, L + d past 64 bits");
        assert_eq!(relation(9, -9, 0), "-d above, L + d inside");
        assert_eq!(relation(8, -9, 0), "-d above, L + d below 0");
        let half = |arrival, limit| relation(arrival, -2_147_483_648, limit);
        assert_eq!(half(0, 0), "half a wrap, L + d below 0, limit 0");
        assert_eq!(half(1 << 31, 1), "half a wrap, L + d inside, limit between");
        assert_eq!(half(1 << 31, LARGEST), "half a wrap, L + d inside, limit the largest");
    }

    #[test]
    fn frames_with_a_stamp() {
        let admitted = |frame| said(&[limited_record(1, 1), frame]);
        assert_eq!(
            admitted(frame(1, 1)),
            "limit sph=0 d equal, L + d inside; limit=1 d=1, kind 5; limit told from 0, kind 5"
        );
        let sph = |stamp: u8| with(sound(1, &[0, 0, 0, stamp]), 44, 4);
        assert_eq!(
            admitted(frame_record(ARRIVAL, &sph(2))),
            "limit sph=1 d one above, L + d inside; limit=1 d=2, kind 5; \
            limit told from the largest; limit told from its bytes in the other order"
        );
        assert_eq!(
            said(&[admit_record(1), frame(1, 2_147_483_647)]),
            "limit=2147483647 d=2147483647, kind 2; limit told from 0, kind 2"
        );
        // No stamp, no blocks, no start; and frames that are refused.
        assert_eq!(admitted(frame_record(ARRIVAL, &with(sound(1, &[]), 19, 0x80))), "");
        assert_eq!(admitted(frame_record(ARRIVAL, &with(sound(1, &[]), 44, 4))), "");
        assert_eq!(admitted(frame_record(ARRIVAL, &with(with(sph(2), 44, 0x44), 45, 1))), "");
        assert_eq!(admitted(frame(2, 1)), "");
        // L + d is outside.
        let past = frame_record(u64::MAX, &stamped(sound(1, &[]), 1));
        assert_eq!(admitted(past), "limit sph=0 d one above, L + d past 64 bits");
    }

    #[test]
    fn limits_of_other_streams() {
        let streams = [limited_record(1, 5), limited_record(2, 9), limited_record(3, 6)];
        let then = |frames: &[Vec<u8>]| told_from(&[&streams[..], frames].concat());
        assert_eq!(
            then(&[frame(2, 9)]),
            "0, kind 5; the first stream's; the last admitted stream's"
        );
        assert_eq!(then(&[frame(2, 6)]), "0, kind 5; the first stream's");
        assert_eq!(
            then(&[frame(3, -1), frame(1, 6)]),
            "the largest; its bytes in the other order; the last admitted stream's; \
            that of the frame before"
        );
        assert_eq!(then(&[frame(2, -1)]), "");
    }

    #[test]
    fn limits_that_a_record_would_change() {
        let then = |between: &[Vec<u8>], offset| {
            told_from(&[&[limited_record(1, 9)][..], between, &[frame(1, offset)]].concat())
        };
        let (below, above) = ("0, kind 5", "the largest; its bytes in the other order");
        assert_eq!(then(&[], 9), below);
        assert_eq!(then(&[], 10), above);
        for (refused, name) in [
            (admit_record(1), "a refused admission's, kind 2, allowed"),
            (limited_record(1, 10), "a refused admission's, kind 5, allowed"),
            (limited_record(1, 1 << 31), "a refused admission's, kind 5, too large"),
        ] {
            assert_eq!(then(&[refused], 10), format!("{above}; {name}"));
        }
        assert_eq!(
            then(&[frame(1, 4)], 9),
            format!(
                "{below}; 0 after an accepted frame; the offset before, after an accepted frame"
            )
        );
        assert_eq!(
            then(&[frame(1, -4)], 10),
            format!("{above}; the largest after an accepted frame")
        );
        let refused = frame_record(ARRIVAL, &with(sound(1, &[]), 44, 0x18));
        assert_eq!(
            then(&[frame(1, 10), refused], 10),
            format!(
                "{above}; the largest after a refused frame; \
                the offset before, after a refused frame"
            )
        );
    }
}
