//! Cases of half a wrap (request #106).
//!
//! A frame that is listed as one, with an offset d of −2,147,483,648 or one to either
//! side of it, is some of these, each after its SPH, as in
//! `sph=1 half a wrap, L + d below 0`.
//!
//! - `half a wrap, L + d below 0`, and the same of `at 0` and `above 0`: d is
//!   −2,147,483,648.
//! - `half a wrap, L at the largest`: d is that, and L is the largest of 64 bits.
//! - `d=-2147483647, L + d below 0`, and the same of `at 0` and `above 0`.
//! - `d=2147483647, L + d above 0`, and the same of `at the largest` and `past 64 bits`.
//!
//! It is told here by L and d, and not by the kind that the room of presentation times
//! gives.

use crate::capture::{parse_record, CaptureRecord};
use crate::outcome::Outcome;
use crate::refusal::Refusal;

/// The largest time of 64 bits.
const LARGEST: i128 = u64::MAX as i128;

/// What is so of a frame with this offset.
fn cases(arrival: u64, offset: i32) -> Vec<String> {
    let name = match offset {
        -2_147_483_648 => "half a wrap",
        -2_147_483_647 => "d=-2147483647",
        2_147_483_647 => "d=2147483647",
        _ => return vec![],
    };
    let place = match i128::from(arrival) + i128::from(offset) {
        ..0 => "below 0",
        0 => "at 0",
        1..LARGEST => "above 0",
        LARGEST => "at the largest",
        _ => "past 64 bits",
    };
    let mut cases = vec![format!("{name}, L + d {place}")];
    if offset == -2_147_483_648 && arrival == u64::MAX {
        cases.push(format!("{name}, L at the largest"));
    }
    cases
}

/// What a record that comes to `outcome` is a case of.
pub fn half_wrap_cases(record: &[u8], outcome: &Result<Outcome, Refusal>) -> Vec<String> {
    match (parse_record(record), outcome) {
        (Ok(CaptureRecord::Frame { arrival, .. }), Ok(Outcome::Frame(reception))) => {
            let line = |case| format!("sph={} {case}", u8::from(reception.frame.cip.sph));
            cases(arrival, reception.presentation.offset).into_iter().map(line).collect()
        }
        _ => vec![],
    }
}

#[cfg(test)]
mod tests {
    use super::*;

    /// What is so of a frame with this offset, on one line.
    fn said(arrival: u64, offset: i32) -> String {
        cases(arrival, offset).join("; ")
    }

    #[test]
    fn half_a_wrap() {
        let said = |arrival| said(arrival, i32::MIN);
        assert_eq!(said(0), "half a wrap, L + d below 0");
        assert_eq!(said((1 << 31) - 1), "half a wrap, L + d below 0");
        assert_eq!(said(1 << 31), "half a wrap, L + d at 0");
        assert_eq!(said((1 << 31) + 1), "half a wrap, L + d above 0");
        assert_eq!(said(u64::MAX - 1), "half a wrap, L + d above 0");
        assert_eq!(said(u64::MAX), "half a wrap, L + d above 0; half a wrap, L at the largest");
    }

    #[test]
    fn one_to_either_side() {
        let (least, greatest) = (i32::MIN + 1, i32::MAX);
        assert_eq!(said(0, least), "d=-2147483647, L + d below 0");
        assert_eq!(said((1 << 31) - 2, least), "d=-2147483647, L + d below 0");
        assert_eq!(said((1 << 31) - 1, least), "d=-2147483647, L + d at 0");
        assert_eq!(said(1 << 31, least), "d=-2147483647, L + d above 0");
        assert_eq!(said(u64::MAX, least), "d=-2147483647, L + d above 0");
        let last = u64::MAX - 2_147_483_647;
        assert_eq!(said(0, greatest), "d=2147483647, L + d above 0");
        assert_eq!(said(last - 1, greatest), "d=2147483647, L + d above 0");
        assert_eq!(said(last, greatest), "d=2147483647, L + d at the largest");
        assert_eq!(said(last + 1, greatest), "d=2147483647, L + d past 64 bits");
        assert_eq!(said(u64::MAX, greatest), "d=2147483647, L + d past 64 bits");
    }

    #[test]
    fn other_offsets() {
        for offset in [i32::MIN + 2, -1, 0, 1, i32::MAX - 1] {
            assert_eq!(said(1 << 31, offset), "");
        }
    }
}
