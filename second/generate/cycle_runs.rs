//! Questions about cycle time for a long comparison.

use crate::bare::bare_payload;
use crate::chance::Chance;
use crate::damage::{spoil, FIELD_CHECKS};
use crate::frames::Frame;
use crate::questions::{cycle_time_of, judgement_of, nanosecond_of, Question, LONGEST_FRAME};
use crate::ticks::{first_nanosecond, syt, CYCLE_TICKS, SECOND, SECOND_TICKS};
use std::io::{self, Write};

/// Cycles of which every offset is asked, and those of them for which the way
/// there is asked too.
const CYCLES: usize = 220;
const CYCLES_THERE: usize = 30;
/// Cycle times out of range, or nearly.
const ODD_CYCLE_TIMES: usize = 60_000;
/// Ticks anywhere, nanoseconds anywhere, and judgements.
const TICKS: usize = 40_000;
const NANOSECONDS: usize = 100_000;
const JUDGEMENTS: usize = 320_000;
/// Questions that ask nothing.
const NO_QUESTIONS: usize = 500;

/// Seconds and cycles at the edges.
const EDGE_SECONDS: [u64; 6] = [0, 127, 1, 63, 64, 126];
const EDGE_CYCLES: [u64; 9] = [0, 1, 15, 16, 7999, 17, 4000, 7984, 7998];

/// The last whole second of 64 bits of nanoseconds.
const LAST_SECOND: u64 = u64::MAX / SECOND - 1;

/// Cycles, each by its seconds and its number, none twice: the edges with each
/// other, then any.
fn cycles(chance: &mut Chance) -> Vec<(u64, u64)> {
    let mut cycles = Vec::with_capacity(CYCLES);
    for cycle in EDGE_CYCLES {
        for seconds in EDGE_SECONDS {
            cycles.push((seconds, cycle));
        }
    }
    while cycles.len() < CYCLES {
        let cycle = (chance.below(128) as u64, chance.below(8000) as u64);
        if !cycles.contains(&cycle) {
            cycles.push(cycle);
        }
    }
    cycles
}

/// A number of any size.
fn any(chance: &mut Chance) -> u64 {
    let shift = chance.below(64);
    chance.next() >> shift
}

/// A number below `bound`, at it or over it, or one that is below it with its
/// upper bits left out.
fn odd(chance: &mut Chance, bound: u64) -> u64 {
    let low = chance.below(bound as usize) as u64;
    match chance.below(10) {
        0 => bound,
        1 => bound + 1,
        2 => bound - 1,
        3 => low | chance.pick(&[1 << 16, 1 << 31, 1 << 32, 1 << 63]),
        4 => chance.pick(&[u64::MAX, u64::MAX - 1, u64::from(u32::MAX), 65_535, 255]),
        5 => any(chance),
        _ => low,
    }
}

/// A second of any time, often one of the first 128.
fn any_second(chance: &mut Chance) -> u64 {
    match chance.below(4) {
        0 => chance.pick(&[0, 1, 127, 128, 129, LAST_SECOND]),
        1 | 2 => chance.below(128) as u64,
        _ => any(chance) % (LAST_SECOND + 1),
    }
}

/// A tick of a second, often one near the end of a cycle, of 16 cycles or of the
/// second.
fn any_tick(chance: &mut Chance) -> u64 {
    let ticks = match chance.below(4) {
        0 => chance.below(8000) as u64 * CYCLE_TICKS,
        1 => chance.below(500) as u64 * 16 * CYCLE_TICKS,
        2 => 0,
        _ => return chance.below(SECOND_TICKS as usize) as u64,
    };
    (ticks + SECOND_TICKS + chance.below(5) as u64 - 2) % SECOND_TICKS
}

/// The first nanosecond of a tick of a second, the one before and the one after.
fn around(second: u64, tick: u64) -> [u64; 3] {
    let first = second * SECOND + first_nanosecond(tick);
    [first.saturating_sub(1), first, first + 1]
}

/// An arrival: at a tick's edge, anywhere, or among the largest.
fn arrival(chance: &mut Chance) -> u64 {
    match chance.below(8) {
        0 => u64::MAX - chance.below(100_000) as u64,
        1 | 2 => any(chance),
        _ => {
            let second = any_second(chance);
            let tick = any_tick(chance);
            chance.pick(&around(second, tick))
        }
    }
}

/// An offset from -24,576 to 24,575, often at an edge, or just out of range.
fn offset(chance: &mut Chance) -> i64 {
    let near = chance.pick(&[0, 0, -24_576, 24_575]);
    match chance.below(4) {
        0 => near,
        1 | 2 => near + chance.below(9) as i64 - 4,
        _ => chance.below(49_152) as i64 - 24_576,
    }
}

/// A SYT: at an offset from the arrival, any, with an offset too large, or none.
fn any_syt(chance: &mut Chance, arrival: u64) -> u16 {
    match chance.below(16) {
        0 => 0xFFFF,
        1 => 0xF000 | chance.next() as u16,
        2 => chance.next() as u16 & 0xF000 | chance.pick(&[3071, 3072, 3073, 4094, 4095]),
        3 => chance.next() as u16 | 0x0C00,
        4 | 5 => chance.next() as u16,
        _ => {
            let offset = offset(chance);
            syt(arrival, offset)
        }
    }
}

/// A frame that arrives at `arrival`, sound but for its SYT.
fn frame_at(chance: &mut Chance, arrival: u64) -> Frame {
    let id = chance.next();
    let mut frame = Frame::sound(chance, id);
    frame.low_half = any_syt(chance, arrival);
    frame.sph = chance.one_in(10);
    frame.tv = chance.flip();
    frame.fraction = chance.byte() & 3;
    frame.sid = match chance.below(12) {
        0 => 63,
        1 => 62,
        _ => frame.sid,
    };
    match chance.below(5) {
        0 => frame.carry(chance.bytes(4)),
        1 => {
            let padding = chance.within(1, 4);
            frame.padding = chance.bytes(padding);
        }
        2 => frame.dbs = chance.pick(&[0, 1, 2, 6, 255]),
        3 => {
            let payload = bare_payload(chance, &frame, LONGEST_FRAME - 42);
            frame.carry_bare(payload);
        }
        _ => {}
    }
    frame
}

/// The bytes of a frame with one thing wrong, or two, or some of it missing.
fn damaged(chance: &mut Chance, frame: &mut Frame) -> Vec<u8> {
    // Only a block of one quadlet fits in with its payload.
    frame.dbs = 1;
    if chance.one_in(3) {
        let number = chance.pick(FIELD_CHECKS);
        spoil(chance, frame, number);
    }
    match chance.below(16) {
        0 => {
            let mut bytes = frame.bytes();
            bytes.truncate(chance.within(0, LONGEST_FRAME));
            bytes
        }
        1 => {
            let mut bytes = frame.bytes();
            let place = chance.below(bytes.len());
            bytes[place] ^= 1 << chance.below(8);
            bytes
        }
        2 => {
            frame.dbs = chance.pick(&[0, 2, 3, 255]);
            frame.carry(chance.bytes(4));
            frame.bytes()
        }
        _ => {
            let number = chance.pick(FIELD_CHECKS);
            spoil(chance, frame, number);
            frame.bytes()
        }
    }
}

/// Asks for the judgement of a frame, one in eight of them damaged.
fn any_judgement(chance: &mut Chance) -> Question {
    let arrival = arrival(chance);
    let mut frame = frame_at(chance, arrival);
    let mut bytes = if chance.one_in(8) { damaged(chance, &mut frame) } else { frame.bytes() };
    bytes.truncate(LONGEST_FRAME);
    judgement_of(arrival, &bytes, chance.byte())
}

/// A question that asks nothing.
fn no_question(chance: &mut Chance) -> Question {
    let mut question = any_judgement(chance);
    if chance.flip() {
        question[0] = chance.pick(&[0, 4, 5, 128, 129, 131, 254, 255]);
    } else {
        question[1] = chance.within(LONGEST_FRAME + 1, 255) as u8;
    }
    question
}

/// Writes the questions of a seed.
pub fn write_questions(seed: u64, out: &mut impl Write) -> io::Result<()> {
    let chance = &mut Chance::new(seed, 101);
    let cycles = cycles(chance);
    for &(seconds, cycle) in &cycles {
        for offset in 0..CYCLE_TICKS {
            out.write_all(&nanosecond_of([seconds, cycle, offset], chance.byte()))?;
        }
    }
    for &(seconds, cycle) in &cycles[..CYCLES_THERE] {
        for offset in 0..CYCLE_TICKS {
            for nanosecond in around(seconds, cycle * CYCLE_TICKS + offset) {
                out.write_all(&cycle_time_of(nanosecond, chance.byte()))?;
            }
        }
    }
    for _ in 0..ODD_CYCLE_TIMES {
        let cycle_time = [odd(chance, 128), odd(chance, 8000), odd(chance, 3072)];
        out.write_all(&nanosecond_of(cycle_time, chance.byte()))?;
    }
    for _ in 0..TICKS {
        let second = any_second(chance);
        for nanosecond in around(second, any_tick(chance)) {
            out.write_all(&cycle_time_of(nanosecond, chance.byte()))?;
        }
    }
    for _ in 0..NANOSECONDS {
        out.write_all(&cycle_time_of(any(chance), chance.byte()))?;
    }
    for _ in 0..JUDGEMENTS {
        out.write_all(&any_judgement(chance))?;
    }
    for _ in 0..NO_QUESTIONS {
        out.write_all(&no_question(chance))?;
    }
    Ok(())
}
