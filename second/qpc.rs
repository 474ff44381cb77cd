//! Cases of QPC (request #105).
//!
//! A frame with a QPC that isn't 0 is one of these; one with tag 0 has none (request
//! #108):
//!
//! - `qpc=3 alone`: with QPC 0 it would be listed as a frame.
//! - `qpc with 13`: with QPC 0 it would be refused with this number.
//!
//! A frame that is listed as one may be some of these:
//!
//! - `qpc shows in seq`, and the same of `dbc`, `fmt` and `mr`: the flag would be
//!   another if the frames before it that are refused for their QPC were accepted.

use crate::capture::{parse_record, CaptureRecord};
use crate::outcome::{carry_out, Outcome};
use crate::refusal::Refusal;
use crate::stream::Flags;
use crate::table::StreamTable;

/// The bytes of a frame's record that have the tag and QPC, after the kind, the arrival
/// and 40 or 44 bytes of the frame; and their bits there.
const TAG_AT: usize = 2 + 8 + 40;
const TAG_BITS: u8 = 0xC0;
const QPC_AT: usize = 2 + 8 + 44;
const QPC_BITS: u8 = 0x38;

/// Sets QPC to 0 if the record has a frame with one, and answers what it was.
fn clear_qpc(record: &mut [u8]) -> u8 {
    if !matches!(parse_record(record), Ok(CaptureRecord::Frame { .. })) {
        return 0;
    }
    let has_cip = record.get(TAG_AT).is_some_and(|byte| byte & TAG_BITS != 0);
    let Some(byte) = record.get_mut(QPC_AT).filter(|_| has_cip) else {
        return 0;
    };
    let qpc = (*byte & QPC_BITS) >> 3;
    *byte &= !QPC_BITS;
    qpc
}

/// The flags by their names in a listing.
fn named(flags: Flags) -> [(&'static str, bool); 4] {
    let Flags { sequence, block, format, mr } = flags;
    [("seq", sequence), ("dbc", block), ("fmt", format), ("mr", mr)]
}

/// What a record that comes to `outcome` is a case of. `heedless` is the table of a
/// reader that takes every QPC for 0.
pub fn qpc_cases(
    heedless: &mut StreamTable,
    record: &[u8],
    outcome: &Result<Outcome, Refusal>,
) -> Vec<String> {
    let mut cleared = record.to_vec();
    let qpc = clear_qpc(&mut cleared);
    match (qpc, outcome, carry_out(heedless, &cleared)) {
        (0, Ok(Outcome::Frame(listed)), Ok(Outcome::Frame(taken))) => named(listed.flags)
            .into_iter()
            .zip(named(taken.flags))
            .filter(|(listed, taken)| listed != taken)
            .map(|((flag, _), _)| format!("qpc shows in {flag}"))
            .collect(),
        (0, ..) => vec![],
        (_, _, Ok(_)) => vec![format!("qpc={qpc} alone")],
        (_, _, Err(refusal)) => vec![format!("qpc with {}", refusal.number())],
    }
}
