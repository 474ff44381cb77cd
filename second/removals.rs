//! Cases of removal records, which are no longer obeyed (request #109).
//!
//! A record of kind 3 and of length 10 is some of these:
//!
//! - `removal before any admission`: no stream is admitted so far.
//! - `removal of a stream admitted` and `removal of a stream not admitted`, and the same
//!   of each with `, table full`.
//! - `removal again`: the stream is admitted, and was removed before, since its admission.
//!
//! One of kind 3 with another length, or of length 10 and with a kind that has 3 in one of
//! its bytes, is one of these:
//!
//! - `removal of length 14`, and the same of each other from 2 to 15, and of `any` longer.
//! - `removal of kind 259`, and the same of `768` and `any` other.
//!
//! An admission after a removal may be one of these:
//!
//! - `removal, then the stream refused 21`, and the same with `, table full`: the stream
//!   is admitted and was removed.
//! - `removal, then another refused 22`: some other stream is admitted and was removed.
//! - `removal, then the stream admitted`: the stream wasn't admitted when it was removed.
//!
//! A frame after a removal of its stream may be some of these. What is between two frames
//! comes after an accepted one of the stream, and before the next.
//!
//! - `removal, then a frame refused 15`: the stream isn't admitted.
//! - `removal before the first frame`: since the stream's admission.
//! - `removal between frames, seq=break`, and the same of `dbc=break`, `fmt=change`,
//!   `mr=change` and `no flag`: what the later frame is listed with.
//! - `removal and admission between frames, seq=break`, and so on: after the removal comes
//!   an admission of the stream too, which would be obeyed if the removal were.
//! - `removal and admission between frames, limit kept`: with the limit of that admission,
//!   the later frame's kind of time would be another.
//! - `removal too long between frames` and `removal of another kind between frames`: what
//!   would be the id there is the stream's.
//!
//! The end of a capture may be some of these:
//!
//! - `removal last` and `removal before a cut record`: the last whole record removes a
//!   stream that is admitted.
//! - `removal cut after its kind`, `removal cut within its id` and `removal cut before its
//!   last byte`, and `removal of another length cut`.
//! - `removal with no frames`, `removal after all frames`, `removal before all frames` and
//!   `removal amid frames`: how the accepted frames of a stream lie to the first removal
//!   since its admission.
//! - `removal amid summed offsets`: so lie those of its frames that are ahead or late.
//!
//! It is told here by the records' bytes and by what is listed of admissions and frames. A
//! record that is listed otherwise than it is told here is `removal judged otherwise`, which
//! isn't to come up.

use crate::capture::{parse_record, CaptureRecord};
use crate::outcome::Outcome;
use crate::presentation::{Presentation, TimeKind, LARGEST_LIMIT};
use crate::refusal::Refusal;
use crate::stream::Flags;
use crate::table::Reception;
use std::collections::{BTreeMap, BTreeSet};

/// Places of the table.
const PLACES: usize = 64;

/// What is not to come up.
const JUDGED_OTHERWISE: &str = "removal judged otherwise";

/// What came since a stream's admission or its last accepted frame, whichever is later.
#[derive(Clone, Copy, Default)]
struct Between {
    removal: bool,
    /// The limit of an admission after the removal.
    limit: Option<u32>,
    too_long: bool,
    other_kind: bool,
}

/// An admitted stream.
#[derive(Default)]
struct Stream {
    removed: bool,
    between: Between,
    /// Whether there were accepted frames before the first removal, and after it.
    frames: [bool; 2],
    /// The same of those that are ahead or late.
    summed: [bool; 2],
}

/// The removals of a capture, as the records so far give them.
#[derive(Default)]
pub struct Removals {
    streams: BTreeMap<u64, Stream>,
    /// Streams that weren't admitted when they were removed.
    strangers: BTreeSet<u64>,
    /// Whether the last record removes a stream that is admitted.
    last: bool,
}

/// Whether the kind of time would be another with this limit.
fn told_from(presentation: &Presentation, limit: u32) -> bool {
    let above = i64::from(presentation.offset) > i64::from(limit);
    match presentation.kind {
        TimeKind::Ahead => above,
        TimeKind::Far => !above,
        _ => false,
    }
}

/// The flags that are raised, as they are listed, or `no flag`.
fn raised(flags: Flags) -> Vec<&'static str> {
    let Flags { sequence, block, format, mr } = flags;
    let named =
        [(sequence, "seq=break"), (block, "dbc=break"), (format, "fmt=change"), (mr, "mr=change")];
    let raised: Vec<_> =
        named.iter().filter(|(raised, _)| *raised).map(|(_, name)| *name).collect();
    if raised.is_empty() {
        vec!["no flag"]
    } else {
        raised
    }
}

impl Between {
    /// What is so of an accepted frame that isn't its stream's first.
    fn cases(&self, listed: &Reception) -> Vec<String> {
        let what = match self.limit {
            Some(_) => "removal and admission between frames",
            None => "removal between frames",
        };
        let mut cases = vec![];
        if self.removal {
            cases.extend(raised(listed.flags).iter().map(|flag| format!("{what}, {flag}")));
        }
        if self.limit.is_some_and(|limit| told_from(&listed.presentation, limit)) {
            cases.push(format!("{what}, limit kept"));
        }
        if self.too_long {
            cases.push("removal too long between frames".into());
        }
        if self.other_kind {
            cases.push("removal of another kind between frames".into());
        }
        cases
    }
}

impl Stream {
    /// Takes in an accepted frame, and says what it is a case of.
    fn accepted(&mut self, listed: &Reception) -> Vec<String> {
        let between = std::mem::take(&mut self.between);
        let cases = match self.frames {
            [false, false] if between.removal => vec!["removal before the first frame".into()],
            [false, false] => vec![],
            _ => between.cases(listed),
        };
        let side = usize::from(self.removed);
        self.frames[side] = true;
        self.summed[side] |= matches!(listed.presentation.kind, TimeKind::Ahead | TimeKind::Late);
        cases
    }

    /// What the end of the capture is a case of, for a stream that was removed.
    fn end_cases(&self) -> Vec<String> {
        let how = match self.frames {
            [false, false] => "removal with no frames",
            [true, false] => "removal after all frames",
            [false, true] => "removal before all frames",
            [true, true] => "removal amid frames",
        };
        let amid = (self.summed == [true, true]).then_some("removal amid summed offsets");
        [Some(how), amid].into_iter().flatten().map(String::from).collect()
    }
}

impl Removals {
    /// The end of a case's name, by whether there is a place left.
    fn full(&self) -> &'static str {
        if self.streams.len() < PLACES {
            ""
        } else {
            ", table full"
        }
    }

    /// Takes in a removal, and says what it is a case of.
    fn removal(&mut self, id: u64) -> Vec<String> {
        let full = self.full();
        let mut cases = vec![];
        if self.streams.is_empty() {
            cases.push("removal before any admission".into());
        }
        let Some(stream) = self.streams.get_mut(&id) else {
            self.strangers.insert(id);
            cases.push(format!("removal of a stream not admitted{full}"));
            return cases;
        };
        cases.push(format!("removal of a stream admitted{full}"));
        if stream.removed {
            cases.push("removal again".into());
        }
        stream.removed = true;
        stream.between.removal = true;
        self.last = true;
        cases
    }

    /// Takes in a record that is refused for its length or its kind, and says what it is a
    /// case of.
    fn unread(&mut self, record: &[u8], number: u64) -> Vec<String> {
        let Some((kind, body)) = record.split_first_chunk() else {
            return vec![];
        };
        let id = body.first_chunk().map_or(0, |id| u64::from_be_bytes(*id));
        let stream = self.streams.get_mut(&id).filter(|_| record.len() >= 10);
        let (expected, cases) = match (u16::from_le_bytes(*kind), record.len()) {
            (3, 10) => (44, self.removal(id)),
            (3, length) => {
                if let Some(stream) = stream {
                    stream.between.too_long = true;
                }
                let length = if length <= 15 { length.to_string() } else { "any".into() };
                (42, vec![format!("removal of length {length}")])
            }
            (whole, 10) if kind.contains(&3) => {
                if let Some(stream) = stream {
                    stream.between.other_kind = true;
                }
                let named = matches!(whole, 259 | 768).then(|| whole.to_string());
                (43, vec![format!("removal of kind {}", named.unwrap_or("any".into()))])
            }
            _ => return vec![],
        };
        if number == expected {
            cases
        } else {
            vec![JUDGED_OTHERWISE.into()]
        }
    }

    /// Takes in an admission, refused with this number if it is, and says what it is a case
    /// of.
    fn admission(&mut self, id: u64, limit: u32, number: Option<u64>) -> Vec<String> {
        let full = self.full();
        let case = match (number, self.streams.get_mut(&id)) {
            (None, None) => {
                self.streams.insert(id, Stream::default());
                self.strangers.remove(&id).then(|| "removal, then the stream admitted".into())
            }
            (Some(21), Some(stream)) => {
                if stream.between.removal && limit <= LARGEST_LIMIT {
                    stream.between.limit = Some(limit);
                }
                stream.removed.then(|| format!("removal, then the stream refused 21{full}"))
            }
            (Some(22), None) => {
                let removed = self.streams.values().any(|stream| stream.removed);
                removed.then(|| "removal, then another refused 22".into())
            }
            (Some(24), None) => None,
            _ => Some(JUDGED_OTHERWISE.into()),
        };
        case.into_iter().collect()
    }

    /// Takes in a frame that is listed as one, and says what it is a case of.
    fn accepted(&mut self, listed: &Reception) -> Vec<String> {
        match self.streams.get_mut(&listed.frame.stream_id) {
            Some(stream) => stream.accepted(listed),
            None => vec![JUDGED_OTHERWISE.into()],
        }
    }

    /// What a frame of a stream that isn't admitted is a case of.
    fn not_admitted(&self, frame: &[u8]) -> Vec<String> {
        let id = frame.get(22..).and_then(|rest| rest.first_chunk());
        match id.map(|id| u64::from_be_bytes(*id)) {
            Some(id) if self.streams.contains_key(&id) => vec![JUDGED_OTHERWISE.into()],
            Some(id) if self.strangers.contains(&id) => {
                vec!["removal, then a frame refused 15".into()]
            }
            _ => vec![],
        }
    }

    /// What the end of the capture is a case of, given what there is of a cut record.
    pub fn end_cases(&self, cut: &[u8]) -> Vec<String> {
        let removed = self.streams.values().filter(|stream| stream.removed);
        let mut cases: Vec<String> = removed.flat_map(Stream::end_cases).collect();
        if self.last {
            let how = if cut.is_empty() { "last" } else { "before a cut record" };
            cases.push(format!("removal {how}"));
        }
        let cut_where = match (cut, cut.len()) {
            ([10, 0, 3, 0, ..], 4) => Some("removal cut after its kind"),
            ([10, 0, 3, 0, ..], 11) => Some("removal cut before its last byte"),
            ([10, 0, 3, 0, ..], _) => Some("removal cut within its id"),
            ([_, _, 3, 0, ..], _) => Some("removal of another length cut"),
            _ => None,
        };
        cases.extend(cut_where.map(String::from));
        cases
    }
}

/// What a record that comes to `outcome` is a case of. `removals` has the records before
/// it, and takes it in.
pub fn removal_cases(
    removals: &mut Removals,
    record: &[u8],
    outcome: &Result<Outcome, Refusal>,
) -> Vec<String> {
    removals.last = false;
    match (parse_record(record), outcome) {
        (Ok(CaptureRecord::Frame { .. }), Ok(Outcome::Frame(listed))) => removals.accepted(listed),
        (Ok(CaptureRecord::Frame { frame, .. }), Err(Refusal::StreamNotAdmitted)) => {
            removals.not_admitted(frame)
        }
        (Ok(CaptureRecord::Admit { id, limit }), _) => {
            removals.admission(id, limit, outcome.err().map(Refusal::number))
        }
        (Err(_), Err(refusal)) => removals.unread(record, refusal.number()),
        _ => vec![],
    }
}

#[cfg(test)]
mod tests {
    use super::*;
    use crate::outcome::carry_out;
    use crate::samples::{
        admit_record, frame_record, limited_record, record, remove_record, sound, stamped, with,
    };
    use crate::table::StreamTable;

    /// What the last of these records is a case of, and then the end of the capture, after
    /// a cut record of which there are these bytes.
    fn all_said(records: &[Vec<u8>], cut: &[u8]) -> (String, String) {
        let (mut table, mut removals) = (StreamTable::new(), Removals::default());
        let mut last = vec![];
        for record in records {
            let outcome = carry_out(&mut table, &record[2..]);
            last = removal_cases(&mut removals, &record[2..], &outcome);
        }
        (last.join("; "), removals.end_cases(cut).join("; "))
    }

    /// The first of the two.
    fn said(records: &[Vec<u8>]) -> String {
        all_said(records, &[]).0
    }

    /// The second.
    fn said_at_the_end(records: &[Vec<u8>], cut: &[u8]) -> String {
        all_said(records, cut).1
    }

    /// A frame of stream 1.
    fn frame(sequence: u8) -> Vec<u8> {
        frame_record(0, &with(sound(1, &[]), 20, sequence))
    }

    /// Admissions of as many streams, from id 1 on.
    fn admissions(count: u64) -> Vec<Vec<u8>> {
        (1..=count).map(admit_record).collect()
    }

    #[test]
    fn removals_by_the_table() {
        assert_eq!(
            said(&[remove_record(1)]),
            "removal before any admission; removal of a stream not admitted"
        );
        assert_eq!(said(&[admit_record(2), remove_record(1)]), "removal of a stream not admitted");
        let admitted = "removal of a stream admitted";
        let once = [admit_record(1), remove_record(1)];
        assert_eq!(said(&once), admitted);
        assert_eq!(said(&[&once[..], &once].concat()), format!("{admitted}; removal again"));
        let full = |id| said(&[&admissions(64)[..], &[remove_record(id)]].concat());
        assert_eq!(full(64), format!("{admitted}, table full"));
        assert_eq!(full(65), "removal of a stream not admitted, table full");
    }

    #[test]
    fn other_lengths_and_kinds() {
        for length in [2, 3, 9, 11, 14, 15] {
            let other = record(3, &vec![0; length - 2]);
            assert_eq!(said(&[other]), format!("removal of length {length}"));
        }
        assert_eq!(said(&[record(3, &[0; 14])]), "removal of length any");
        for (kind, named) in [(259, "259"), (768, "768"), (771, "any"), (65283, "any")] {
            assert_eq!(said(&[record(kind, &[0; 8])]), format!("removal of kind {named}"));
            assert_eq!(said(&[record(kind, &[0; 9])]), "");
        }
        assert_eq!(said(&[record(4, &[0; 8])]), "");
        assert_eq!(said(&[vec![1, 0, 3]]), "");
        assert_eq!(said(&[vec![0, 0]]), "");
    }

    #[test]
    fn refused_otherwise() {
        let removed = |number| Removals::default().unread(&[3, 0, 0, 0, 0, 0, 0, 0, 0, 1], number);
        assert_eq!(removed(44).len(), 2);
        for number in [23, 42, 43] {
            assert_eq!(removed(number), [JUDGED_OTHERWISE]);
        }
        assert_eq!(Removals::default().unread(&[3, 0], 44), [JUDGED_OTHERWISE]);
        let mut removals = Removals::default();
        assert!(removals.admission(1, 0, None).is_empty());
        assert_eq!(removals.admission(1, 0, None), [JUDGED_OTHERWISE]);
        assert_eq!(removals.admission(2, 0, Some(21)), [JUDGED_OTHERWISE]);
        assert_eq!(removals.not_admitted(&sound(1, &[])), [JUDGED_OTHERWISE]);
    }

    #[test]
    fn admissions_after_a_removal() {
        let again = "removal, then the stream refused 21";
        let once = [admit_record(1), remove_record(1)];
        let then = |admission| said(&[&once[..], &[admission]].concat());
        assert_eq!(then(admit_record(1)), again);
        assert_eq!(then(limited_record(1, u32::MAX)), again);
        assert_eq!(then(admit_record(2)), "");
        assert_eq!(then(limited_record(2, u32::MAX)), "");
        assert_eq!(said(&[admit_record(1), admit_record(1)]), "");
        let full = |removed, admitted| {
            let removal = [remove_record(removed), admit_record(admitted)];
            said(&[&admissions(64)[..], &removal].concat())
        };
        assert_eq!(full(9, 9), format!("{again}, table full"));
        assert_eq!(full(9, 8), "");
        assert_eq!(full(9, 65), "removal, then another refused 22");
        assert_eq!(full(65, 65), "");
        assert_eq!(said(&[remove_record(1), admit_record(1)]), "removal, then the stream admitted");
    }

    #[test]
    fn frames_after_a_removal() {
        assert_eq!(said(&[remove_record(1), frame(0)]), "removal, then a frame refused 15");
        assert_eq!(said(&[remove_record(2), frame(0)]), "");
        let first = "removal before the first frame";
        assert_eq!(said(&[admit_record(1), remove_record(1), frame(0)]), first);
        assert_eq!(said(&[remove_record(1), admit_record(1), frame(0)]), "");
        let then = |between: &[Vec<u8>], next: Vec<u8>| {
            said(&[&[admit_record(1), frame(0)][..], between, &[next]].concat())
        };
        let removal = [remove_record(1)];
        assert_eq!(then(&removal, frame(1)), "removal between frames, no flag");
        let other = with(with(with(sound(1, &[]), 45, 9), 43, 9), 19, 0x89);
        assert_eq!(
            then(&removal, frame_record(0, &other)),
            "removal between frames, seq=break; removal between frames, dbc=break; \
            removal between frames, fmt=change; removal between frames, mr=change"
        );
        // It is over with the next accepted frame.
        let refused = frame_record(0, &with(other, 12, 0));
        assert_eq!(then(&removal, refused.clone()), "");
        assert_eq!(
            then(&[refused, removal[0].clone()], frame(1)),
            "removal between frames, no flag"
        );
        assert_eq!(then(&[removal[0].clone(), frame(1)], frame(2)), "");
        assert_eq!(then(&[remove_record(2)], frame(1)), "");
        let id = 1_u64.to_be_bytes();
        let too_long = record(3, &[&id[..], &[0]].concat());
        assert_eq!(then(&[too_long], frame(1)), "removal too long between frames");
        assert_eq!(then(&[record(259, &id)], frame(1)), "removal of another kind between frames");
        assert_eq!(then(&[record(3, &id[..7])], frame(1)), "");
    }

    #[test]
    fn limits_of_admissions_after_a_removal() {
        let ahead_by =
            |sequence, by| frame_record(1 << 40, &stamped(with(sound(1, &[]), 20, sequence), by));
        let then = |admission, by| {
            let records = [
                limited_record(1, 9),
                ahead_by(0, 0),
                remove_record(1),
                admission,
                ahead_by(1, by),
            ];
            said(&records)
        };
        let (again, kept) = ("removal and admission between frames, no flag", "limit kept");
        let both = format!("{again}; removal and admission between frames, {kept}");
        assert_eq!(then(limited_record(1, 8), 9), both);
        assert_eq!(then(limited_record(1, 8), 8), again);
        assert_eq!(then(admit_record(1), 10), both);
        assert_eq!(then(admit_record(1), 9), again);
        assert_eq!(then(admit_record(1), 1 << 31), again);
        assert_eq!(then(limited_record(1, 1 << 31), 10), "removal between frames, no flag");
    }

    #[test]
    fn ends_of_captures() {
        let end = |records: &[Vec<u8>]| said_at_the_end(records, &[]);
        let (admission, removal) = (admit_record(1), remove_record(1));
        let whole = [admission.clone(), frame(0), removal.clone(), frame(1)];
        assert_eq!(end(&[admission.clone(), frame(0)]), "");
        assert_eq!(end(&[removal.clone(), admission.clone()]), "");
        assert_eq!(
            end(&[admission.clone(), removal.clone()]),
            "removal with no frames; removal last"
        );
        assert_eq!(end(&whole[..3]), "removal after all frames; removal last");
        assert_eq!(
            end(&[admission.clone(), removal.clone(), frame(0)]),
            "removal before all frames"
        );
        assert_eq!(end(&whole), "removal amid frames; removal amid summed offsets");
        let unstamped = frame_record(0, &with(sound(1, &[]), 19, 0x80));
        assert_eq!(end(&[&whole[..3], &[unstamped]].concat()), "removal amid frames");
    }

    #[test]
    fn cut_ends() {
        let cut = |records: &[Vec<u8>], cut: &[u8]| said_at_the_end(records, cut);
        let once = [admit_record(1), remove_record(1)];
        assert_eq!(cut(&once, &[10]), "removal with no frames; removal before a cut record");
        let removal = remove_record(3);
        for (length, how) in [
            (4, "after its kind"),
            (5, "within its id"),
            (10, "within its id"),
            (11, "before its last byte"),
        ] {
            assert_eq!(cut(&[], &removal[..length]), format!("removal cut {how}"));
        }
        assert_eq!(cut(&[], &removal[..3]), "");
        assert_eq!(cut(&[], &record(3, &[0; 12])[..15]), "removal of another length cut");
        assert_eq!(cut(&[], &admit_record(3)[..9]), "");
    }
}
