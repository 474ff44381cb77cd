//! Cycle ticks, the nanoseconds at which they start, and SYTs.

/// Nanoseconds in a second.
pub const SECOND: u64 = 1_000_000_000;

/// Ticks in a cycle, in 16 cycles and in a second.
pub const CYCLE_TICKS: u64 = 3072;
const WRAP_TICKS: u64 = 16 * CYCLE_TICKS;
pub const SECOND_TICKS: u64 = 8000 * CYCLE_TICKS;

/// The tick that a nanosecond lies in, counted from its second's start.
fn tick(nanosecond: u64) -> u64 {
    nanosecond % SECOND * 384 / 15_625
}

/// The first nanosecond of a tick, both counted from the start of one second.
pub fn first_nanosecond(tick: u64) -> u64 {
    (tick * 15_625).div_ceil(384)
}

/// The SYT that lies `offset` ticks from `arrival`.
pub fn syt(arrival: u64, offset: i64) -> u16 {
    let due = (tick(arrival) as i64 + offset).rem_euclid(WRAP_TICKS as i64) as u64;
    ((due / CYCLE_TICKS) << 12 | due % CYCLE_TICKS) as u16
}
