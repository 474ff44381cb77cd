//! The questions about cycle time at the edges of each rule. They are the same at
//! every run, so that they and their answers can be stored.

use crate::frames::Frame;
use crate::questions::{cycle_time_of, judgement_of, nanosecond_of, LENGTH};

/// Nanoseconds whose cycle time is asked.
const NANOSECONDS: &[u64] = &[
    // The first tick, and the first of the next: 15,625/384 is more than 40.
    0,
    1,
    40,
    41,
    // Tick 2, and tick 384, which starts with a nanosecond, with its neighbours.
    81,
    82,
    15_584,
    15_585,
    15_624,
    15_625,
    15_665,
    15_666,
    // The last tick of a cycle, its last nanosecond, and the first after.
    124_959,
    124_960,
    124_999,
    125_000,
    // The same of 16 cycles.
    1_999_959,
    1_999_960,
    1_999_999,
    2_000_000,
    // The same of a second.
    999_999_959,
    999_999_960,
    999_999_999,
    1_000_000_000,
    1_000_000_041,
    // The same of 128 seconds.
    127_000_000_000,
    127_999_999_959,
    127_999_999_960,
    127_999_999_999,
    128_000_000_000,
    128_000_000_041,
    // Where 32 and 63 bits end.
    (1 << 32) - 1,
    1 << 32,
    (1 << 63) - 1,
    1 << 63,
    // The last that can be taken 384 times in 64 bits, and the first that can't.
    u64::MAX / 384,
    u64::MAX / 384 + 1,
    // The last nanosecond of the last whole second, and the largest nanoseconds.
    18_446_744_072_999_999_999,
    18_446_744_073_000_000_000,
    u64::MAX - 1,
    u64::MAX,
];

/// Cycle times, each seconds, cycle and offset, whose nanosecond is asked.
const CYCLE_TIMES: &[[u64; 3]] = &[
    // The first ticks, and those around tick 384.
    [0, 0, 0],
    [0, 0, 1],
    [0, 0, 2],
    [0, 0, 383],
    [0, 0, 384],
    [0, 0, 385],
    // The last tick of a cycle, of 16 cycles, of a second and of 128 seconds, and
    // the first after.
    [0, 0, 3071],
    [0, 1, 0],
    [0, 15, 3071],
    [0, 16, 0],
    [0, 7999, 3071],
    [1, 0, 0],
    [127, 0, 0],
    [127, 7999, 3070],
    [127, 7999, 3071],
    // 61: cycle above 7,999.
    [0, 7999, 0],
    [0, 8000, 0],
    [127, 8000, 3071],
    // 62: offset above 3,071.
    [0, 0, 3072],
    [127, 7999, 3072],
    // 63: seconds above 127.
    [127, 1, 1],
    [128, 0, 0],
    [128, 7999, 3071],
    // Two that are wrong, and all three: 61 comes before 62, and 62 before 63.
    [0, 8000, 3072],
    [128, 8000, 0],
    [128, 0, 3072],
    [128, 8000, 3072],
    // Numbers that would be in range with their upper bits left out.
    [0, 1 << 16, 0],
    [0, 1 << 32, 0],
    [0, 0, 1 << 12],
    [0, 0, 1 << 32],
    [256, 0, 0],
    [1 << 32, 0, 0],
    // The largest numbers.
    [0, u64::MAX, 0],
    [0, 0, u64::MAX],
    [u64::MAX, 0, 0],
    [u64::MAX, 7999, u64::MAX],
    [u64::MAX, u64::MAX, u64::MAX],
];

/// Arrivals, each with the SYT of a frame that is sound otherwise.
const SYTS: &[(u64, u16)] = &[
    // From tick 0: offsets 0, 1 and -1.
    (0, 0x0000),
    (0, 0x0001),
    (0, 0xFBFF),
    (40, 0x0000),
    (41, 0x0000),
    (41, 0x0001),
    // From tick 0: both ends of the range, with their neighbours.
    (0, 0x7BFE),
    (0, 0x7BFF),
    (0, 0x8000),
    (0, 0x8001),
    // From the middle of 16 cycles: 0, and both ends.
    (1_000_000, 0x8000),
    (1_000_000, 0x0000),
    (1_000_000, 0xFBFF),
    (1_000_041, 0x0000),
    (1_000_041, 0x0001),
    (999_999, 0xFBFF),
    (999_999, 0xFBFE),
    // From the last tick of 16 cycles: past their end, both ends, and 0.
    (1_999_999, 0x0000),
    (1_999_999, 0x7BFE),
    (1_999_999, 0x7BFF),
    (1_999_959, 0xFBFF),
    (1_999_960, 0xFBFF),
    // From the first tick of 16 cycles: before their start, and 0.
    (2_000_000, 0xFBFF),
    (2_000_000, 0x0000),
    // The same around the end of a second.
    (999_999_999, 0x0000),
    (999_999_999, 0xFBFF),
    (1_000_000_000, 0xFBFF),
    // The second plays no part.
    (1_001_999_999, 0x0000),
    (127_001_999_999, 0x0000),
    (128_001_999_999, 0x0000),
    (18_446_744_073_001_999_999, 0x0000),
    (127_001_000_041, 0x0000),
    (128_001_000_000, 0x0000),
    // The largest arrival, in cycle 12 of 16: 0, both ends, 62 and none.
    (u64::MAX, 0xC4F4),
    (u64::MAX, 0x44F4),
    (u64::MAX, 0x44F3),
    (u64::MAX, 0x0C00),
    (u64::MAX, 0xFFFF),
    (18_446_744_072_999_999_999, 0x0000),
    // 62: offset above 3,071, in the first cycle, in the middle and in the last,
    // where 0xFFFF is none.
    (0, 0x0BFF),
    (0, 0x0C00),
    (0, 0x0FFF),
    (0, 0x7C00),
    (0, 0xEFFF),
    (0, 0xF000),
    (0, 0xFC00),
    (0, 0xFFFE),
    (0, 0xFFFF),
];

/// The arrival of the frames below, in the last tick of 16 cycles: SYT 0x0000 is
/// one tick ahead.
const ARRIVAL: u64 = 1_999_999;

/// What is changed in frames that the reader accepts.
const ACCEPTED: &[fn(&mut Frame)] = &[
    // SID 62 has a SYT, and SID 63 none, whatever stands there.
    |frame| frame.sid = 62,
    |frame| (frame.sid, frame.low_half) = (62, 0x0C00),
    |frame| (frame.sid, frame.low_half) = (62, 0xFFFF),
    |frame| (frame.sid, frame.indicators) = (62, [3, 3]),
    |frame| frame.sid = 63,
    |frame| (frame.sid, frame.low_half) = (63, 0x0C00),
    |frame| (frame.sid, frame.low_half) = (63, 0xFFFE),
    |frame| (frame.sid, frame.low_half) = (63, 0xFFFF),
    |frame| (frame.sid, frame.indicators) = (63, [3, 3]),
    // SPH 1 has no SYT, whatever stands there.
    |frame| frame.sph = true,
    |frame| (frame.sph, frame.low_half) = (true, 0x0C00),
    |frame| (frame.sph, frame.low_half) = (true, 0xFFFF),
    |frame| (frame.sph, frame.sid) = (true, 63),
    |frame| {
        frame.sph = true;
        frame.carry(vec![0, 0, 0, 1]);
    },
    // All the bits around QPC, with SPH 0 and with SPH 1.
    |frame| (frame.fraction, frame.cip_reserved) = (3, 3),
    |frame| (frame.fraction, frame.sph, frame.cip_reserved) = (3, true, 3),
    // tv 0: the SYT is judged all the same.
    |frame| frame.tv = false,
    |frame| (frame.tv, frame.low_half) = (false, 0xFFFF),
    // The bits that readers ignore.
    |frame| frame.r = true,
    |frame| frame.reserved = 0x7F,
    |frame| frame.tcode = 5,
    |frame| frame.indicators = [3, 3],
    |frame| frame.cip_reserved = 3,
    // Every other field full.
    |frame| {
        (frame.pcp, frame.vid, frame.mr, frame.gv, frame.tu) = (7, 0xFFF, true, true, true);
        (frame.sequence, frame.stream_id, frame.timestamp) = (0xFF, u64::MAX, u32::MAX);
        (frame.gateway_info, frame.channel, frame.sy) = (u32::MAX, 63, 15);
        (frame.dbs, frame.dbc, frame.fmt, frame.fdf) = (0xFF, 0xFF, 63, 0xFF);
    },
    // A block of payload; padding after no payload, which isn't looked at.
    |frame| frame.carry(vec![0xFF; 4]),
    |frame| frame.padding = vec![0xFF],
    |frame| frame.padding = vec![0xFF; 4],
    |frame| (frame.dbs, frame.padding) = (0, vec![0xFF; 4]),
    |frame| (frame.low_half, frame.padding) = (0x0C00, vec![0; 4]),
    // Tag 0 has no SYT, whatever stands there (request #108).
    |frame| frame.tag = 0,
    |frame| (frame.tag, frame.low_half) = (0, 0x0C00),
    |frame| (frame.tag, frame.low_half) = (0, 0xFFFF),
    |frame| (frame.tag, frame.sid) = (0, 62),
    |frame| (frame.tag, frame.sid) = (0, 63),
    |frame| (frame.tag, frame.sph) = (0, true),
    |frame| (frame.tag, frame.tv) = (0, false),
    // With tag 1 it would be a 13, a 16 and a 14.
    |frame| (frame.tag, frame.stream_data_length) = (0, 7),
    |frame| (frame.tag, frame.stream_data_length) = (0, 0),
    |frame| (frame.tag, frame.qpc) = (0, 3),
    |frame| {
        (frame.tag, frame.dbs) = (0, 2);
        frame.carry(vec![0; 4]);
    },
    |frame| {
        frame.tag = 0;
        frame.carry(vec![0; 3]);
    },
    // Without room for a CIP header, with just enough, and with more.
    |frame| frame.carry_bare(vec![]),
    |frame| frame.carry_bare(vec![0]),
    |frame| frame.carry_bare(vec![0; 7]),
    |frame| frame.carry_bare(vec![0; 8]),
    |frame| frame.carry_bare(vec![0; 12]),
    |frame| {
        frame.carry_bare(vec![]);
        frame.padding = vec![0; 8];
    },
];

/// What is changed in frames that the reader refuses, whatever their SYT. Each is
/// asked with a SYT that would be a 62 and with one that would be none.
const REFUSED: &[fn(&mut Frame)] = &[
    // 3, 4 and 5.
    |frame| frame.tpid = 0x88A8,
    |frame| frame.cfi = true,
    |frame| frame.ethertype = 0x22F1,
    // 6, 7, 8 and 9.
    |frame| frame.cd = true,
    |frame| frame.subtype = 1,
    |frame| frame.version = 1,
    |frame| frame.sv = false,
    // 10, by either address.
    |frame| frame.destination[0] &= !1,
    |frame| frame.source[0] |= 1,
    // 11.
    |frame| frame.stream_data_length = 9,
    // 11, 10 and 3 with tag 0.
    |frame| (frame.tag, frame.stream_data_length) = (0, 9),
    |frame| (frame.tag, frame.source[0]) = (0, 3),
    |frame| (frame.tag, frame.tpid) = (0, 0x88A8),
    // 12, alone, with a SID and an SPH that would be none, with a QPC, and with a length
    // under 8.
    |frame| frame.tag = 2,
    |frame| frame.tag = 3,
    |frame| (frame.tag, frame.sid, frame.sph) = (2, 63, true),
    |frame| (frame.tag, frame.qpc) = (3, 3),
    |frame| (frame.tag, frame.stream_data_length) = (2, 7),
    // 13, alone and with a QPC.
    |frame| frame.stream_data_length = 7,
    |frame| (frame.stream_data_length, frame.qpc) = (7, 3),
    // 16: each QPC; with a SID or an SPH that would be none, with all the bits around
    // it, and with a part of a block.
    |frame| frame.qpc = 1,
    |frame| frame.qpc = 2,
    |frame| frame.qpc = 3,
    |frame| frame.qpc = 4,
    |frame| frame.qpc = 5,
    |frame| frame.qpc = 6,
    |frame| frame.qpc = 7,
    |frame| (frame.qpc, frame.sid) = (3, 63),
    |frame| (frame.qpc, frame.sph) = (3, true),
    |frame| (frame.fraction, frame.qpc, frame.sph, frame.cip_reserved) = (3, 1, true, 3),
    |frame| {
        (frame.dbs, frame.qpc) = (2, 3);
        frame.carry(vec![0; 4]);
    },
    // 14: a part of a block, of DBS 2 and of DBS 0, and a part of a quadlet.
    |frame| {
        frame.dbs = 2;
        frame.carry(vec![0; 4]);
    },
    |frame| {
        frame.dbs = 0;
        frame.carry(vec![0; 4]);
    },
    |frame| frame.carry(vec![0; 3]),
];

/// Frames cut off after a number of bytes, each with its stream_data_length.
const CUT: &[(usize, u16)] = &[
    // 1: under 42 bytes.
    (0, 8),
    (41, 0),
    // 11: over frame length - 42.
    (42, 1),
    (49, 8),
    // 13: under 8.
    (42, 0),
    (49, 7),
    // Long enough.
    (50, 8),
];

/// The first bytes of questions that ask nothing.
const NO_QUESTIONS: &[[u8; 2]] = &[
    // Other numbers than 1, 2 and 3.
    [0, 0],
    [4, 50],
    [255, 0],
    // A frame longer than there is room for.
    [3, 55],
    [3, 255],
];

/// A frame that says no more than it has to.
fn plain() -> Frame {
    Frame {
        destination: [0x91, 0xE0, 0xF0, 0x00, 0x0E, 0x80],
        source: [0x02, 0x1B, 0xC5, 0x01, 0x02, 0x03],
        tpid: 0x8100,
        ethertype: 0x22F0,
        sv: true,
        tv: true,
        stream_id: 1,
        stream_data_length: 8,
        tag: 1,
        tcode: 10,
        indicators: [0, 2],
        dbs: 1,
        ..Frame::default()
    }
}

/// The bytes of a plain frame with something changed.
fn changed(change: impl FnOnce(&mut Frame)) -> Vec<u8> {
    let mut frame = plain();
    change(&mut frame);
    frame.bytes()
}

/// The edge questions, the last of them cut short.
pub fn edge_questions() -> Vec<u8> {
    let mut questions = Vec::new();
    for &nanosecond in NANOSECONDS {
        questions.extend(cycle_time_of(nanosecond, 0));
    }
    for &cycle_time in CYCLE_TIMES {
        questions.extend(nanosecond_of(cycle_time, 0));
    }
    for &(arrival, syt) in SYTS {
        let frame = changed(|frame| frame.low_half = syt);
        questions.extend(judgement_of(arrival, &frame, 0));
    }
    for &change in ACCEPTED {
        questions.extend(judgement_of(ARRIVAL, &changed(change), 0));
    }
    for &change in REFUSED {
        for syt in [0x0C00, 0xFFFF] {
            let frame = changed(|frame| {
                change(frame);
                frame.low_half = syt;
            });
            questions.extend(judgement_of(ARRIVAL, &frame, 0));
        }
    }
    for &(kept, length) in CUT {
        let frame = changed(|frame| frame.stream_data_length = length);
        questions.extend(judgement_of(ARRIVAL, &frame[..kept], 0));
    }
    // All that isn't looked at is 0xFF.
    questions.extend(cycle_time_of(41, 0xFF));
    questions.extend(nanosecond_of([1, 1, 1], 0xFF));
    questions.extend(judgement_of(ARRIVAL, &plain().bytes(), 0xFF));
    for &[asks, length] in NO_QUESTIONS {
        let mut question = judgement_of(ARRIVAL, &plain().bytes(), 0);
        (question[0], question[1]) = (asks, length);
        questions.extend(question);
    }
    questions.extend(&cycle_time_of(41, 0)[..LENGTH - 1]);
    questions
}
