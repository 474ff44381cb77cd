//! Presentation time: when a frame's samples are due, by its stamp and the time
//! at which it arrived.

use crate::frame::Frame;

/// How a presentation time lies to the arrival.
#[derive(Clone, Copy, Debug, PartialEq, Eq)]
pub enum TimeKind {
    /// The frame carries no stamp.
    None,
    /// With SPH 1, the payload has bytes, but fewer than a stamp.
    Cut,
    /// The time is below 0 or past 64 bits.
    Outside,
    /// Before the arrival.
    Late,
    /// At the arrival or after it, by no more than the stream's transit limit.
    Ahead,
    /// As far before the arrival as after it (request #106).
    Unclear,
    /// After the arrival by more than the stream's transit limit (request #107).
    Far,
}

impl TimeKind {
    /// The kind's name in a listing.
    pub fn name(self) -> &'static [u8] {
        match self {
            TimeKind::None => b"none",
            TimeKind::Cut => b"cut",
            TimeKind::Outside => b"outside",
            TimeKind::Late => b"late",
            TimeKind::Ahead => b"ahead",
            TimeKind::Unclear => b"unclear",
            TimeKind::Far => b"far",
        }
    }
}

/// The offset of half a wrap: 2^31 nanoseconds before the arrival, or as many after it.
const HALF_A_WRAP: i32 = i32::MIN;

/// The largest transit limit, in nanoseconds (request #107). No offset is above it.
pub const LARGEST_LIMIT: u32 = i32::MAX as u32;

/// A frame's presentation time, judged on its arrival.
#[allow(dead_code)] // a listing doesn't print the time
#[derive(Clone, Copy, Debug, PartialEq, Eq)]
pub struct Presentation {
    pub kind: TimeKind,
    pub offset: i32,
    pub time: u64,
}

impl Presentation {
    /// A presentation of the kind, with offset and time 0.
    const fn without_time(kind: TimeKind) -> Presentation {
        Presentation { kind, offset: 0, time: 0 }
    }

    /// The presentation time that the 32-bit `stamp` stands for, being the one
    /// nearest to `arrival` (in nanoseconds). Half a wrap away two are equally near,
    /// and neither is taken, whether it would be outside or not (request #106). An
    /// offset above `limit` is far, unless the time is outside (request #107).
    fn of_stamp(stamp: u32, arrival: u64, limit: u32) -> Presentation {
        // The difference modulo 2^32, read as a signed number.
        let offset = stamp.wrapping_sub(arrival as u32) as i32;
        if offset == HALF_A_WRAP {
            return Presentation { kind: TimeKind::Unclear, offset, time: 0 };
        }
        match arrival.checked_add_signed(i64::from(offset)) {
            None => Presentation { kind: TimeKind::Outside, offset, time: 0 },
            Some(time) if i64::from(offset) > i64::from(limit) => {
                Presentation { kind: TimeKind::Far, offset, time }
            }
            Some(time) if offset < 0 => Presentation { kind: TimeKind::Late, offset, time },
            Some(time) => Presentation { kind: TimeKind::Ahead, offset, time },
        }
    }

    /// The presentation time of an accepted frame, under its stream's transit limit.
    /// With SPH 1 the stamp opens the first source packet that starts in the frame,
    /// and tv isn't read; otherwise it is the AVTP timestamp if that is valid.
    pub fn of_frame(frame: &Frame, arrival: u64, limit: u32) -> Presentation {
        let stamp = match (frame.cip.sph, frame.payload.len()) {
            (false, _) => frame.tv.then_some(frame.timestamp),
            (true, 1..=3) => return Presentation::without_time(TimeKind::Cut),
            (true, _) => source_packet_stamp(frame),
        };
        match stamp {
            Some(stamp) => Presentation::of_stamp(stamp, arrival, limit),
            None => Presentation::without_time(TimeKind::None),
        }
    }
}

/// The stamp of the first source packet that starts in the frame: the first four
/// bytes of the first block whose count opens one.
fn source_packet_stamp(frame: &Frame) -> Option<u32> {
    let (_, block) = frame
        .cip
        .counted_blocks(frame.payload)
        .find(|&(count, _)| frame.cip.opens_source_packet(count))?;
    block.first_chunk().map(|stamp| u32::from_be_bytes(*stamp))
}

#[cfg(test)]
mod tests {
    use super::*;
    use crate::frame::parse_frame;
    use crate::refusal::Refusal;
    use crate::samples::{sound, stamped, tagged_0, with};

    /// The presentation time of a frame under a transit limit.
    fn limited(frame: &[u8], arrival: u64, limit: u32) -> (TimeKind, i32, u64) {
        let Presentation { kind, offset, time } =
            Presentation::of_frame(&parse_frame(frame).unwrap(), arrival, limit);
        (kind, offset, time)
    }

    /// The same without a record, which takes the largest limit.
    fn of_bytes(frame: &[u8], arrival: u64) -> (TimeKind, i32, u64) {
        limited(frame, arrival, LARGEST_LIMIT)
    }

    fn time(stamp: u32, arrival: u64) -> (TimeKind, i32, u64) {
        of_bytes(&stamped(sound(1, &[]), stamp), arrival)
    }

    #[test]
    fn m9_to_m12_times() {
        assert_eq!(time(10, 4_294_967_290), (TimeKind::Ahead, 16, 4_294_967_306));
        assert_eq!(time(4_294_967_290, 4_294_967_306), (TimeKind::Late, -16, 4_294_967_290));
        assert_eq!(time(4_294_967_290, 10), (TimeKind::Outside, -16, 0));
        assert_eq!(time(5, 5), (TimeKind::Ahead, 0, 5));
    }

    #[test]
    fn other_times() {
        assert_eq!(time(2_147_483_647, 0), (TimeKind::Ahead, 2_147_483_647, 2_147_483_647));
        assert_eq!(time(2_147_483_648, 0), (TimeKind::Unclear, -2_147_483_648, 0));
        assert_eq!(time(0, u64::MAX), (TimeKind::Outside, 1, 0));
        assert_eq!(time(u32::MAX, u64::MAX), (TimeKind::Ahead, 0, u64::MAX));
    }

    /// The presentation times of a stamp `offset` from `arrival`, which is the AVTP
    /// timestamp with SPH 0 and in the payload with SPH 1; both must be the same.
    fn limited_offset(offset: i32, arrival: u64, limit: u32) -> (TimeKind, i32, u64) {
        let stamp = (arrival as u32).wrapping_add_signed(offset);
        let in_header = limited(&stamped(sound(1, &[]), stamp), arrival, limit);
        let in_payload = with(sound(1, &stamp.to_be_bytes()), 44, 4);
        assert_eq!(limited(&in_payload, arrival, limit), in_header);
        in_header
    }

    /// The same under the largest limit.
    fn at_offset(offset: i32, arrival: u64) -> (TimeKind, i32, u64) {
        limited_offset(offset, arrival, LARGEST_LIMIT)
    }

    #[test]
    fn half_a_wrap_is_unclear() {
        let d = -2_147_483_648;
        for arrival in [
            // L + d below 0.
            0,
            1,
            2_147_483_647,
            // L + d not below 0.
            2_147_483_648,
            2_147_483_649,
            1 << 40,
            u64::MAX - 1,
            u64::MAX,
        ] {
            assert_eq!(at_offset(d, arrival), (TimeKind::Unclear, d, 0), "L {arrival}");
        }
    }

    #[test]
    fn one_to_either_side_of_half_a_wrap() {
        let last = 18_446_744_071_562_067_968;
        let d = -2_147_483_647;
        assert_eq!(at_offset(d, 0), (TimeKind::Outside, d, 0));
        assert_eq!(at_offset(d, 2_147_483_646), (TimeKind::Outside, d, 0));
        assert_eq!(at_offset(d, 2_147_483_647), (TimeKind::Late, d, 0));
        assert_eq!(at_offset(d, 2_147_483_648), (TimeKind::Late, d, 1));
        assert_eq!(at_offset(d, u64::MAX), (TimeKind::Late, d, last));
        let d = 2_147_483_647;
        assert_eq!(at_offset(d, 0), (TimeKind::Ahead, d, 2_147_483_647));
        assert_eq!(at_offset(d, 2_147_483_648), (TimeKind::Ahead, d, 4_294_967_295));
        assert_eq!(at_offset(d, last), (TimeKind::Ahead, d, u64::MAX));
        assert_eq!(at_offset(d, last + 1), (TimeKind::Outside, d, 0));
        assert_eq!(at_offset(d, u64::MAX), (TimeKind::Outside, d, 0));
    }

    #[test]
    fn above_the_limit_is_far() {
        let arrival = 1 << 40;
        for limit in [0, 1, 2, 255, 256, 65_536, 2_000_000, 2_147_483_645, 2_147_483_646] {
            let d = limit as i32;
            let time = arrival + u64::from(limit);
            assert_eq!(limited_offset(d, arrival, limit), (TimeKind::Ahead, d, time));
            assert_eq!(limited_offset(d + 1, arrival, limit), (TimeKind::Far, d + 1, time + 1));
            let (kind, ..) = limited_offset(d - 1, arrival, limit);
            assert_eq!(kind, if d == 0 { TimeKind::Late } else { TimeKind::Ahead });
            let (kind, ..) = limited_offset(i32::MAX, arrival, limit);
            assert_eq!(kind, TimeKind::Far);
        }
        // A limit that no admission gives is above every offset too.
        for limit in [LARGEST_LIMIT, LARGEST_LIMIT + 1, u32::MAX] {
            let d = 2_147_483_647;
            let time = arrival + 2_147_483_647;
            assert_eq!(limited_offset(d, arrival, limit), (TimeKind::Ahead, d, time));
        }
    }

    #[test]
    fn late_frames_are_not_far() {
        for limit in [0, 1, 1000, LARGEST_LIMIT] {
            for d in [-1_i32, -2, -1000, -1001, -2_147_483_647] {
                let time = (1 << 40) - u64::from(d.unsigned_abs());
                assert_eq!(limited_offset(d, 1 << 40, limit), (TimeKind::Late, d, time));
            }
        }
    }

    #[test]
    fn outside_and_unclear_win_over_far() {
        for limit in [0, 1, 1000, 2_147_483_646] {
            // L + d at the largest time, and past it.
            let d = limit as i32 + 1;
            let last = u64::MAX - u64::from(limit) - 1;
            assert_eq!(limited_offset(d, last, limit), (TimeKind::Far, d, u64::MAX));
            assert_eq!(limited_offset(d, last + 1, limit), (TimeKind::Outside, d, 0));
            assert_eq!(limited_offset(d, u64::MAX, limit), (TimeKind::Outside, d, 0));
            assert_eq!(limited_offset(-d, u64::from(limit), limit), (TimeKind::Outside, -d, 0));
            for arrival in [0, 1 << 31, 1 << 40, u64::MAX] {
                let d = i32::MIN;
                assert_eq!(limited_offset(d, arrival, limit), (TimeKind::Unclear, d, 0));
            }
        }
    }

    /// A frame with SPH 1, FN, DBC and DBS, whose block `i` opens with stamp 1000 + i.
    fn of_blocks(fraction: u8, dbc: u8, dbs: u8, blocks: usize) -> Vec<u8> {
        let size = if dbs == 0 { 1024 } else { 4 * usize::from(dbs) };
        let mut payload = vec![0xEE; blocks * size];
        for (block, stamp) in payload.chunks_exact_mut(size).zip(1000u32..) {
            block[..4].copy_from_slice(&stamp.to_be_bytes());
        }
        with(with(with(sound(1, &payload), 43, dbs), 44, fraction << 6 | 4), 45, dbc)
    }

    /// The block whose stamp is taken; nothing where the kind is none.
    fn taken(fraction: u8, dbc: u8, dbs: u8, blocks: usize) -> Option<i32> {
        match of_bytes(&of_blocks(fraction, dbc, dbs, blocks), 1000) {
            (TimeKind::None, 0, 0) => None,
            (TimeKind::Ahead, i, time) if time == 1000 + i as u64 => Some(i),
            other => panic!("{other:?}"),
        }
    }

    #[test]
    fn the_first_block_that_opens_a_source_packet() {
        // Every DBC with FN 0 to 3; the packet that the frame begins in goes on for
        // `before` blocks.
        for (fraction, packet) in [(0, 1), (1, 2), (2, 4), (3, 8)] {
            for dbc in 0..=255 {
                let before = (0..packet).find(|i| (usize::from(dbc) + i) % packet == 0).unwrap();
                for blocks in 0..=before + 2 * packet {
                    let first = (blocks > before).then_some(before as i32);
                    assert_eq!(taken(fraction, dbc, 2, blocks), first, "FN {fraction}, DBC {dbc}");
                }
            }
        }
    }

    #[test]
    fn begins_in_the_middle_of_a_source_packet() {
        assert_eq!(taken(1, 7, 6, 4), Some(1));
        assert_eq!(taken(2, 9, 6, 5), Some(3));
        assert_eq!(taken(3, 13, 6, 6), Some(3));
        // The start is in the last block.
        assert_eq!(taken(3, 9, 6, 8), Some(7));
        // Several starts: the first counts.
        assert_eq!(taken(1, 7, 6, 8), Some(1));
        assert_eq!(taken(3, 15, 6, 20), Some(1));
        assert_eq!(taken(3, 16, 6, 20), Some(0));
    }

    #[test]
    fn no_source_packet_starts() {
        assert_eq!(taken(1, 1, 6, 1), None);
        assert_eq!(taken(2, 2, 6, 2), None);
        assert_eq!(taken(3, 9, 6, 7), None);
        for fraction in 0..=3 {
            assert_eq!(taken(fraction, 0, 6, 0), None);
            assert_eq!(taken(fraction, 0, 0, 0), None);
        }
    }

    #[test]
    fn dbc_wraps_before_the_start() {
        assert_eq!(taken(1, 255, 1, 2), Some(1));
        assert_eq!(taken(2, 254, 1, 3), Some(2));
        assert_eq!(taken(3, 249, 1, 8), Some(7));
        assert_eq!(taken(3, 249, 1, 7), None);
        // It wraps after the start, and over 256 blocks.
        assert_eq!(taken(3, 247, 1, 367), Some(1));
    }

    #[test]
    fn dbs_0_is_one_block() {
        assert_eq!(taken(0, 5, 0, 1), Some(0));
        assert_eq!(taken(3, 8, 0, 1), Some(0));
        assert_eq!(taken(3, 9, 0, 1), None);
        assert_eq!(taken(1, 255, 0, 1), None);
    }

    #[test]
    fn tv_only_counts_with_sph_0() {
        let tv_0 = |frame| of_bytes(&with(frame, 19, 0x80), 1000);
        assert_eq!(tv_0(of_blocks(1, 7, 1, 2)), (TimeKind::Ahead, 1, 1001));
        assert_eq!(tv_0(of_blocks(1, 7, 1, 1)), (TimeKind::None, 0, 0));
        assert_eq!(tv_0(stamped(sound(1, &[0, 0, 4, 0]), 1024)), (TimeKind::None, 0, 0));
        // With tv 1, the AVTP timestamp doesn't stand in for a stamp.
        let tv_1 = |frame| of_bytes(&stamped(frame, 1500), 1000);
        assert_eq!(tv_1(of_blocks(1, 7, 1, 2)), (TimeKind::Ahead, 1, 1001));
        assert_eq!(tv_1(of_blocks(1, 7, 1, 1)), (TimeKind::None, 0, 0));
        assert_eq!(tv_1(of_blocks(1, 7, 1, 0)), (TimeKind::None, 0, 0));
    }

    #[test]
    fn tag_0_has_the_avtp_timestamp() {
        // Bytes that would be a CIP header with SPH 1, before a stamp of its own.
        let data = [0, 1, 4, 0, 0x80, 0, 0, 0, 0, 0, 3, 0xE9];
        for length in [0, 1, 2, 3, 4, 8, 9, 12] {
            let camera = stamped(tagged_0(1, &data[..length]), 1016);
            assert_eq!(of_bytes(&camera, 1000), (TimeKind::Ahead, 16, 1016));
            assert_eq!(limited(&camera, 1000, 15), (TimeKind::Far, 16, 1016));
            assert_eq!(of_bytes(&camera, 1017), (TimeKind::Late, -1, 1016));
            assert_eq!(of_bytes(&with(camera, 19, 0x80), 1000), (TimeKind::None, 0, 0));
        }
    }

    #[test]
    fn payloads_that_no_accepted_frame_has() {
        // A broken block is refused before a stamp could be cut.
        let broken = with(sound(1, &[0, 0, 4]), 44, 4);
        assert_eq!(parse_frame(&broken), Err(Refusal::BrokenBlock));
        let kind = |frame: &[u8], payload: &[u8]| {
            let frame = Frame { payload, ..parse_frame(frame).unwrap() };
            let Presentation { kind, offset, time } =
                Presentation::of_frame(&frame, 0, LARGEST_LIMIT);
            assert_eq!(u64::from(offset.unsigned_abs()), time);
            (kind, time)
        };
        let payload = [0, 0, 0, 1, 0, 0, 0, 2, 0, 0, 0, 3];
        for dbc in 0..=8 {
            for length in 1..=3 {
                let frame = of_blocks(3, dbc, 2, 0);
                assert_eq!(kind(&frame, &payload[..length]), (TimeKind::Cut, 0));
            }
        }
        // With SPH 0 the payload isn't read.
        assert_eq!(kind(&sound(1, &[]), &payload[..3]), (TimeKind::Ahead, 0));
        // Only whole blocks count.
        assert_eq!(kind(&of_blocks(0, 0, 2, 0), &payload[..7]), (TimeKind::None, 0));
        assert_eq!(kind(&of_blocks(0, 0, 2, 0), &payload[..9]), (TimeKind::Ahead, 1));
        assert_eq!(kind(&of_blocks(1, 1, 2, 0), &payload), (TimeKind::None, 0));
        assert_eq!(kind(&of_blocks(1, 1, 1, 0), &payload), (TimeKind::Ahead, 2));
    }
}
