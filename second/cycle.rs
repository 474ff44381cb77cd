//! Cycle time (request #101): the cycle and the tick in which a nanosecond lies,
//! the way back, and how a frame's SYT lies to its arrival.

use crate::frame::{parse_frame, Frame, Tag};
use crate::refusal::Refusal;

/// Ticks in a cycle.
const TICKS: u64 = 3072;
/// Cycles in a second.
const CYCLES: u64 = 8000;
/// Seconds after which cycle times come again.
const SECONDS: u64 = 128;

/// Nanoseconds in a second.
const NANOSECONDS: u64 = 1_000_000_000;
/// 384 ticks last 15,625 nanoseconds, neither more nor less.
const TICKS_OF_SPAN: u128 = 384;
const NANOSECONDS_OF_SPAN: u128 = 15_625;

/// Cycles after which SYTs come again, and the ticks in them.
const SYT_CYCLES: u64 = 16;
const SYT_TICKS: i64 = 49_152;
/// The least and the greatest cycle offset.
const LEAST_OFFSET: i64 = -24_576;
const GREATEST_OFFSET: i64 = 24_575;

/// The SYT that says nothing, and the SID that says that there is no SYT.
const NO_SYT: u16 = 0xFFFF;
const NO_SYT_SID: u8 = 63;

/// A time in nanoseconds. It is no number of ticks: only the two ways between
/// them, `CycleTime::of` and `CycleTime::nanosecond`, make one of the other.
#[derive(Clone, Copy, Debug, PartialEq, Eq)]
pub struct Nanoseconds(pub u64);

/// A time in ticks, counted from cycle second 0.
#[derive(Clone, Copy, Debug, PartialEq, Eq)]
pub struct Ticks(pub u64);

/// A cycle time, in range or not.
#[derive(Clone, Copy, Debug, PartialEq, Eq)]
pub struct CycleTime {
    pub seconds: u64,
    pub cycle: u64,
    /// Ticks since the cycle's start.
    pub offset: u64,
}

/// Whether a nanosecond doesn't lie before a tick's start.
fn not_before(nanosecond: Nanoseconds, tick: Ticks) -> bool {
    u128::from(nanosecond.0) * TICKS_OF_SPAN >= u128::from(tick.0) * NANOSECONDS_OF_SPAN
}

impl CycleTime {
    /// The cycle time of a nanosecond.
    pub fn of(nanosecond: Nanoseconds) -> CycleTime {
        // A second is a whole number of ticks, so the ticks of all the time are
        // those of its whole seconds and those within the last.
        let ticks = u128::from(nanosecond.0) * TICKS_OF_SPAN / NANOSECONDS_OF_SPAN;
        let cycles = ticks / u128::from(TICKS);
        let time = CycleTime {
            seconds: (cycles / u128::from(CYCLES) % u128::from(SECONDS)) as u64,
            cycle: (cycles % u128::from(CYCLES)) as u64,
            offset: (ticks % u128::from(TICKS)) as u64,
        };
        let within = Nanoseconds(nanosecond.0 % NANOSECONDS);
        assert!(not_before(within, time.within_second()));
        assert!(!not_before(within, Ticks(time.within_second().0 + 1)));
        time
    }

    /// The ticks since the second's start.
    fn within_second(&self) -> Ticks {
        Ticks(self.cycle * TICKS + self.offset)
    }

    /// The ticks since the start of cycle second 0, of a cycle time in range.
    pub fn ticks(&self) -> Ticks {
        Ticks((self.seconds * CYCLES + self.cycle) * TICKS + self.offset)
    }

    /// Checks 61 to 63.
    fn check(&self) -> Result<(), Refusal> {
        if self.cycle >= CYCLES {
            return Err(Refusal::Cycle);
        }
        if self.offset >= TICKS {
            return Err(Refusal::CycleOffset);
        }
        if self.seconds >= SECONDS {
            return Err(Refusal::CycleSeconds);
        }
        Ok(())
    }

    /// The SYT: the cycle modulo 16 in four bits, then the offset in twelve.
    pub fn syt(&self) -> Result<u16, Refusal> {
        self.check()?;
        Ok(((self.cycle % SYT_CYCLES) << 12 | self.offset) as u16)
    }

    /// The smallest nanosecond that isn't before the cycle time. It is sought by
    /// what it has to be, and not reckoned.
    pub fn nanosecond(&self) -> Result<Nanoseconds, Refusal> {
        self.check()?;
        let tick = self.ticks();
        // All nanoseconds under `low` are before the tick, and `high` isn't.
        let (mut low, mut high) = (0, SECONDS * NANOSECONDS);
        while low < high {
            let middle = low.midpoint(high);
            if not_before(Nanoseconds(middle), tick) {
                high = middle;
            } else {
                low = middle + 1;
            }
        }
        assert!(not_before(Nanoseconds(high), tick));
        assert!(high == 0 || !not_before(Nanoseconds(high - 1), tick));
        Ok(Nanoseconds(high))
    }
}

/// How a frame's SYT lies to its arrival.
#[derive(Clone, Copy, Debug, PartialEq, Eq)]
pub enum CycleKind {
    /// The frame carries no SYT.
    None,
    /// Before the arrival.
    Late,
    /// At the arrival or after it.
    Ahead,
}

impl CycleKind {
    /// The kind's name in an answer.
    pub fn name(self) -> &'static str {
        match self {
            CycleKind::None => "none",
            CycleKind::Late => "late",
            CycleKind::Ahead => "ahead",
        }
    }
}

/// A frame's SYT, judged on its arrival.
#[derive(Clone, Copy, Debug, PartialEq, Eq)]
pub struct Judgement {
    pub kind: CycleKind,
    /// The cycle offset, in ticks.
    pub offset: i64,
}

/// The cycle offset of a SYT, given by its cycle and offset, from a time.
fn cycle_offset(syt_cycle: u16, syt_offset: u16, time: CycleTime) -> i64 {
    let due = i64::from(syt_cycle) * TICKS as i64 + i64::from(syt_offset);
    // Whatever number of times the SYTs come again is left out or put in, the sum
    // with the time stays the same modulo their ticks. A second is 500 times
    // these, so that it doesn't matter from which second on the time is counted.
    let mut offset = due - time.within_second().0 as i64;
    while offset < LEAST_OFFSET {
        offset += SYT_TICKS;
    }
    while offset > GREATEST_OFFSET {
        offset -= SYT_TICKS;
    }
    offset
}

/// Judges a frame that arrived at `arrival` by its SYT, or answers the number that
/// the reader refuses it with, or else 62.
pub fn judge(frame: &[u8], arrival: Nanoseconds) -> Result<Judgement, Refusal> {
    let Frame { tag, cip, .. } = parse_frame(frame)?;
    // Where there is no CIP header there is no SYT; its fields read as 0 and would be
    // judged (request #108).
    if tag == Tag::NoCip || cip.low_half == NO_SYT || cip.sph || cip.sid == NO_SYT_SID {
        return Ok(Judgement { kind: CycleKind::None, offset: 0 });
    }
    let (cycle, offset) = (cip.low_half >> 12, cip.low_half & 0x0FFF);
    if u64::from(offset) >= TICKS {
        return Err(Refusal::CycleOffset);
    }
    let offset = cycle_offset(cycle, offset, CycleTime::of(arrival));
    let kind = if offset < 0 { CycleKind::Late } else { CycleKind::Ahead };
    Ok(Judgement { kind, offset })
}

#[cfg(test)]
mod tests {
    use super::*;
    use crate::samples::{of_length, sound, tagged_0, with};

    /// The seconds, cycle and offset of a nanosecond.
    fn there(nanosecond: u64) -> [u64; 3] {
        let CycleTime { seconds, cycle, offset } = CycleTime::of(Nanoseconds(nanosecond));
        [seconds, cycle, offset]
    }

    fn time([seconds, cycle, offset]: [u64; 3]) -> CycleTime {
        CycleTime { seconds, cycle, offset }
    }

    /// The nanosecond of a cycle time, or the number it is refused with.
    fn back(parts: [u64; 3]) -> Result<u64, u64> {
        let nanosecond = time(parts).nanosecond();
        assert_eq!(nanosecond.err(), time(parts).syt().err());
        nanosecond.map(|nanosecond| nanosecond.0).map_err(Refusal::number)
    }

    #[test]
    fn first_ticks() {
        for (nanosecond, tick) in [
            (0, 0),
            (1, 0),
            (40, 0),
            (41, 1),
            (81, 1),
            (82, 2),
            (15_584, 382),
            (15_585, 383),
            (15_624, 383),
            (15_625, 384),
            (15_665, 384),
            (15_666, 385),
            (124_959, 3070),
            (124_960, 3071),
            (124_999, 3071),
        ] {
            assert_eq!(there(nanosecond), [0, 0, tick]);
        }
    }

    #[test]
    fn cycles_and_seconds() {
        assert_eq!(there(125_000), [0, 1, 0]);
        assert_eq!(there(1_999_999), [0, 15, 3071]);
        assert_eq!(there(2_000_000), [0, 16, 0]);
        assert_eq!(there(999_999_959), [0, 7999, 3070]);
        assert_eq!(there(999_999_960), [0, 7999, 3071]);
        assert_eq!(there(999_999_999), [0, 7999, 3071]);
        assert_eq!(there(1_000_000_000), [1, 0, 0]);
        assert_eq!(there(127_999_999_999), [127, 7999, 3071]);
        assert_eq!(there(128_000_000_000), [0, 0, 0]);
        // 18,446,744,073 seconds are 128 times 144,115,188 and 9; 709,551,615
        // nanoseconds more are 17,437,940 ticks, rounded down.
        assert_eq!(there(u64::MAX), [9, 5676, 1268]);
        assert_eq!(there(18_446_744_072_999_999_999), [8, 7999, 3071]);
    }

    /// The tick within the second, in the request's own words.
    #[test]
    fn as_the_request_says() {
        for shift in 0..64 {
            for near in [u64::MAX >> shift, (1 << shift) + 12_345, 0x9E37_79B9_7F4A_7C15 >> shift] {
                let [seconds, cycle, offset] = there(near);
                assert_eq!(seconds, near / 1_000_000_000 % 128);
                let tick = near % 1_000_000_000 * 384 / 15_625;
                assert_eq!([cycle, offset], [tick / 3072, tick % 3072]);
            }
        }
    }

    #[test]
    fn the_way_back() {
        assert_eq!(back([0, 0, 0]), Ok(0));
        assert_eq!(back([0, 0, 1]), Ok(41));
        assert_eq!(back([0, 0, 2]), Ok(82));
        assert_eq!(back([0, 0, 383]), Ok(15_585));
        assert_eq!(back([0, 0, 384]), Ok(15_625));
        assert_eq!(back([0, 0, 385]), Ok(15_666));
        assert_eq!(back([0, 0, 3071]), Ok(124_960));
        assert_eq!(back([0, 1, 0]), Ok(125_000));
        assert_eq!(back([0, 7999, 3071]), Ok(999_999_960));
        assert_eq!(back([1, 0, 0]), Ok(1_000_000_000));
        assert_eq!(back([127, 7999, 3071]), Ok(127_999_999_960));
    }

    #[test]
    fn refused_cycle_times() {
        assert_eq!(back([0, 8000, 0]), Err(61));
        assert_eq!(back([0, 0, 3072]), Err(62));
        assert_eq!(back([128, 0, 0]), Err(63));
        assert_eq!(back([128, 8000, 3072]), Err(61));
        assert_eq!(back([127, 8000, 3072]), Err(61));
        assert_eq!(back([128, 8000, 3071]), Err(61));
        assert_eq!(back([128, 7999, 3072]), Err(62));
        assert_eq!(back([u64::MAX; 3]), Err(61));
        assert_eq!(back([u64::MAX, 7999, u64::MAX]), Err(62));
        assert_eq!(back([u64::MAX, 7999, 3071]), Err(63));
        assert_eq!(back([1 << 32, 7999, 3071]), Err(63));
    }

    #[test]
    fn there_and_back() {
        for (seconds, cycle) in [(0, 0), (0, 1), (5, 15), (64, 16), (126, 7998), (127, 7999)] {
            for offset in 0..3072 {
                let parts = [seconds, cycle, offset];
                assert_eq!(there(back(parts).unwrap()), parts);
            }
        }
        for start in [0, 999_990_000, 63_999_990_000, 127_999_980_000] {
            for nanosecond in start..start + 20_000 {
                let earliest = back(there(nanosecond)).unwrap();
                assert!((nanosecond.saturating_sub(40)..=nanosecond).contains(&earliest));
            }
        }
    }

    #[test]
    fn ticks_and_syts() {
        assert_eq!(time([0, 0, 0]).ticks(), Ticks(0));
        assert_eq!(time([1, 2, 3]).ticks(), Ticks(24_582_147));
        assert_eq!(time([127, 7999, 3071]).ticks(), Ticks(3_145_727_999));
        assert_eq!(time([0, 0, 0]).syt(), Ok(0));
        assert_eq!(time([127, 15, 3071]).syt(), Ok(0xFBFF));
        assert_eq!(time([0, 16, 1]).syt(), Ok(1));
        assert_eq!(time([1, 7999, 3071]).syt(), Ok(0xFBFF));
        assert_eq!(time([1, 7992, 0x123]).syt(), Ok(0x8123));
    }

    /// A sound frame with its SYT set.
    fn with_syt(syt: u16) -> Vec<u8> {
        let [high, low] = syt.to_be_bytes();
        with(with(sound(1, &[]), 48, high), 49, low)
    }

    /// The kind and offset of a frame, or the number it is refused with.
    fn judged(frame: &[u8], arrival: u64) -> Result<(CycleKind, i64), u64> {
        judge(frame, Nanoseconds(arrival))
            .map(|Judgement { kind, offset }| (kind, offset))
            .map_err(Refusal::number)
    }

    fn syt(syt: u16, arrival: u64) -> Result<(CycleKind, i64), u64> {
        judged(&with_syt(syt), arrival)
    }

    const NONE: Result<(CycleKind, i64), u64> = Ok((CycleKind::None, 0));

    #[test]
    fn cycle_offsets() {
        assert_eq!(syt(0x0000, 0), Ok((CycleKind::Ahead, 0)));
        assert_eq!(syt(0x0001, 0), Ok((CycleKind::Ahead, 1)));
        assert_eq!(syt(0x0000, 41), Ok((CycleKind::Late, -1)));
        assert_eq!(syt(0x7BFF, 0), Ok((CycleKind::Ahead, 24_575)));
        assert_eq!(syt(0x8000, 0), Ok((CycleKind::Late, -24_576)));
        assert_eq!(syt(0xFBFF, 0), Ok((CycleKind::Late, -1)));
        // L in the last tick of 16 cycles, then in the first.
        assert_eq!(syt(0x0000, 1_999_999), Ok((CycleKind::Ahead, 1)));
        assert_eq!(syt(0xFBFF, 2_000_000), Ok((CycleKind::Late, -1)));
        // L in the middle of 16 cycles.
        assert_eq!(syt(0x0000, 1_000_000), Ok((CycleKind::Late, -24_576)));
        assert_eq!(syt(0xFBFF, 1_000_000), Ok((CycleKind::Ahead, 24_575)));
        assert_eq!(syt(0xFBFF, 999_999), Ok((CycleKind::Late, -24_576)));
    }

    #[test]
    fn the_second_plays_no_part() {
        for second in [1, 2, 127, 128, 18_446_744_072] {
            for within in [0, 999_999, 1_000_000, 1_999_999, 2_000_000, 999_999_999] {
                for stamp in [0x0000, 0x0001, 0x7BFF, 0x8000, 0xFBFF] {
                    let arrival = second * 1_000_000_000 + within;
                    assert_eq!(syt(stamp, arrival), syt(stamp, within));
                }
            }
        }
    }

    #[test]
    fn no_syt() {
        assert_eq!(syt(0xFFFF, 5), NONE);
        for stamp in [0x0000, 0x0C00, 0xFFFE, 0xFFFF] {
            assert_eq!(judged(&with(with_syt(stamp), 44, 4), 5), NONE);
            assert_eq!(judged(&with(with_syt(stamp), 42, 63), 5), NONE);
            assert_eq!(judged(&with(with_syt(stamp), 42, 0xFF), 5), NONE);
        }
        // The SID before it, and the byte of SPH with all else that may be set.
        assert_eq!(judged(&with(with_syt(0x0000), 42, 0xFE), 0), Ok((CycleKind::Ahead, 0)));
        assert_eq!(judged(&with(with_syt(0x0000), 44, 0xC3), 0), Ok((CycleKind::Ahead, 0)));
    }

    #[test]
    fn no_cip_header() {
        for arrival in [0, 5, 1_000_000, u64::MAX] {
            // Bytes that would be a SYT, 0 or too large, and ones that would be refused.
            for stamp in [0x0000, 0x0001, 0x0C00, 0xFFFF] {
                let camera = with(with_syt(stamp), 40, 0);
                assert_eq!(judged(&camera, arrival), NONE);
                assert_eq!(judged(&with(camera.clone(), 42, 62), arrival), NONE);
                assert_eq!(judged(&with(camera.clone(), 44, 0x18), arrival), NONE);
                assert_eq!(judged(&of_length(camera, 7), arrival), NONE);
            }
            for length in 0..=4 {
                assert_eq!(judged(&tagged_0(1, &vec![0; length]), arrival), NONE);
            }
        }
        assert_eq!(judged(&of_length(tagged_0(1, &[]), 1), 0), Err(11));
    }

    #[test]
    fn syt_offsets() {
        for stamp in [0x0C00, 0x0FFF, 0x7C00, 0xFC00, 0xFFFE] {
            assert_eq!(syt(stamp, 0), Err(62));
            assert_eq!(judged(&with(with_syt(stamp), 42, 62), 0), Err(62));
        }
        assert_eq!(syt(0x0BFF, 0), Ok((CycleKind::Ahead, 3071)));
    }

    #[test]
    fn readers_numbers_come_first() {
        for stamp in [0x0000, 0x0C00, 0xFFFF] {
            assert_eq!(judged(&with_syt(stamp)[..41], 0), Err(1));
            assert_eq!(judged(&with_syt(stamp)[..49], 0), Err(11));
            assert_eq!(judged(&with(with_syt(stamp), 12, 0), 0), Err(3));
            assert_eq!(judged(&with(with_syt(stamp), 40, 0x80), 0), Err(12));
            assert_eq!(judged(&with(with_syt(stamp), 40, 0xC0), 0), Err(12));
            assert_eq!(judged(&of_length(with_syt(stamp), 7), 0), Err(13));
            assert_eq!(judged(&with(of_length(with_syt(stamp), 7), 42, 63), 0), Err(13));
            assert_eq!(judged(&with(of_length(with_syt(stamp), 7), 44, 0x18), 0), Err(13));
            assert_eq!(judged(&with(with_syt(stamp), 44, 0x18), 0), Err(16));
            // With SPH 1, and with SID 63.
            assert_eq!(judged(&with(with_syt(stamp), 44, 0x1C), 0), Err(16));
            assert_eq!(judged(&with(with(with_syt(stamp), 44, 0x18), 42, 63), 0), Err(16));
        }
        // tv isn't looked at, nor is the payload.
        let carrying = with(sound(1, &[0xFF; 4]), 19, 0x80);
        assert_eq!(judged(&carrying, 0), Ok((CycleKind::Ahead, 0)));
    }
}
