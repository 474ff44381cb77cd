//! Times of arrival, offsets and stamps.

use crate::chance::Chance;

/// The offset of half a wrap, which is unclear (request #106), and the least that is
/// clear.
pub const HALF_A_WRAP: i32 = i32::MIN;
pub const LEAST_CLEAR: i32 = i32::MIN + 1;

/// An arrival near one of the places where 32 or 64 bits wrap, or any.
pub fn arrival(chance: &mut Chance) -> u64 {
    let near = match chance.below(8) {
        0 => 0,
        1 => 1 << 31,
        2 => 1 << 32,
        3 => chance.next() << 32,
        4 => chance.next() << 31,
        5 => (1u64 << 31).wrapping_neg(),
        6 => (1u64 << 32).wrapping_neg(),
        _ => return chance.next(),
    };
    let by = chance.pick(&[0, 0, 1, 1, 2, 16, 1000, 2_000_000]);
    if chance.flip() {
        u64::wrapping_add(near, by)
    } else {
        u64::wrapping_sub(near, by)
    }
}

/// An offset from −2^31 to 2^31 − 1, often at an edge.
pub fn offset(chance: &mut Chance) -> i32 {
    match chance.below(14) {
        0 => i32::MIN,
        1 => i32::MIN + 1,
        2 => i32::MAX,
        3 => i32::MAX - 1,
        4 => -1,
        5 => 0,
        6 => 1,
        7 => chance.pick(&[-16, 16, -1000, 1000]),
        8 | 9 => chance.next() as i32,
        _ => 2_000_000 - chance.below(125_000) as i32,
    }
}

/// An arrival from which every offset but half a wrap leads to a time, often the first
/// or the last of these.
pub fn inside(chance: &mut Chance) -> u64 {
    let (first, last) = ((1 << 31) - 1, (1u64 << 31).wrapping_neg());
    match chance.below(4) {
        0 => first,
        1 => last,
        _ => first + chance.next() % (last - first),
    }
}

/// The arrival from which an offset below 0 leads to the first time, and another to the
/// last.
fn to_an_end(offset: i32) -> u64 {
    let end: u64 = if offset < 0 { 0 } else { u64::MAX };
    end.wrapping_add_signed(-i64::from(offset))
}

/// An arrival from which an offset leads to the first or the last time or to a neighbour
/// of that, or one from which it leads to a time, or any.
pub fn arrival_for(chance: &mut Chance, offset: i32) -> u64 {
    match chance.below(4) {
        0 => to_an_end(offset).wrapping_add_signed(chance.pick(&[-1, 0, 1])),
        1 => arrival(chance),
        _ => inside(chance),
    }
}

/// An arrival, and an offset of half a wrap or one to either side of it. The arrival is
/// the first or the last of all, or one from which the offset leads to the first or the
/// last time, or a neighbour of that.
pub fn around_half_a_wrap(chance: &mut Chance) -> (u64, i32) {
    let offset = chance.pick(&[HALF_A_WRAP, LEAST_CLEAR, i32::MAX]);
    let edge = to_an_end(offset);
    (chance.pick(&[edge - 1, edge, edge + 1, 0, u64::MAX]), offset)
}

/// The stamp that lies `offset` from `arrival`.
pub fn stamp(arrival: u64, offset: i32) -> u32 {
    (arrival as u32).wrapping_add(offset as u32)
}
