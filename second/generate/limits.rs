//! Transit limits (request #107), and offsets around them.

use crate::captures::Capture;
use crate::chance::Chance;
use crate::times::{offset, HALF_A_WRAP, LEAST_CLEAR};

/// The largest limit that is allowed, which kind 2 admits with.
pub const LARGEST_LIMIT: u32 = 2_147_483_647;

/// A limit that is allowed, as is the one that its bytes are in the other order.
fn either_order(chance: &mut Chance) -> u32 {
    chance.next() as u32 & 0x7FFF_FF7F
}

/// A limit that is allowed, often at an edge.
pub fn allowed(chance: &mut Chance) -> u32 {
    match chance.below(10) {
        0 => 0,
        1 => 1,
        2 => LARGEST_LIMIT,
        3 => LARGEST_LIMIT - 1,
        4 => chance.below(1000) as u32,
        // Near the offset that most frames have.
        5 => 2_000_000 - chance.below(125_000) as u32,
        // The transit times of SR classes A and B.
        6 => chance.pick(&[2_000_000, 50_000_000]),
        _ => either_order(chance),
    }
}

/// A limit that is too large, often by one; some would be allowed with their bytes in
/// the other order.
pub fn too_large(chance: &mut Chance) -> u32 {
    match chance.below(4) {
        0 => LARGEST_LIMIT + 1,
        1 => u32::MAX,
        2 => (LARGEST_LIMIT + 1) | either_order(chance),
        _ => (LARGEST_LIMIT + 1) | chance.next() as u32,
    }
}

/// Any limit; one in four is too large.
pub fn any(chance: &mut Chance) -> u32 {
    if chance.one_in(4) {
        too_large(chance)
    } else {
        allowed(chance)
    }
}

/// Admits a stream by kind 2; in a capture that is `limited`, mostly by kind 5, and now
/// and then with a limit that is too large.
pub fn admit(chance: &mut Chance, capture: &mut Capture, id: u64, limited: bool) {
    if !limited || chance.one_in(4) {
        return capture.admit(id);
    }
    let limit = if chance.one_in(12) { too_large(chance) } else { allowed(chance) };
    capture.admit_limited(id, limit);
}

/// An offset that is the limit or next to it, or this far on the other side of the
/// arrival, or at an edge of all offsets, or any.
pub fn around(chance: &mut Chance, limit: u32) -> i32 {
    let near = chance.pick(&[-1, 0, 1]);
    let offset = match chance.below(12) {
        0..=6 => i64::from(limit) + near,
        7 => near - i64::from(limit),
        8 => return HALF_A_WRAP,
        9 => return chance.pick(&[LEAST_CLEAR, -1, 0, i32::MAX]),
        _ => return offset(chance),
    };
    offset.clamp(HALF_A_WRAP.into(), i32::MAX.into()) as i32
}
