//! Questions about cycle time, and the lines that answer them.

use crate::cycle::{judge, CycleTime, Nanoseconds};
use crate::refusal::Refusal;
use crate::wire::be64;

/// Length of a question.
pub const QUESTION: usize = 64;

const ASKS_CYCLE_TIME: u8 = 1;
const ASKS_NANOSECOND: u8 = 2;
const ASKS_JUDGEMENT: u8 = 3;

/// Where the frame starts in a question that asks for a judgement.
const FRAME: usize = 10;

/// The answer to bytes that ask nothing.
const NO_QUESTION: &str = "no question";

/// The number at a place of a question, least significant byte first.
fn number(question: &[u8; QUESTION], at: usize) -> u64 {
    (0..8).rev().fold(0, |number, byte| number << 8 | u64::from(question[at + byte]))
}

/// The line that answers a question, without its line feed. A question of fewer
/// bytes than a question has asks nothing.
pub fn answer(question: &[u8]) -> String {
    let Ok(question) = <&[u8; QUESTION]>::try_from(question) else {
        return NO_QUESTION.into();
    };
    match question[0] {
        ASKS_CYCLE_TIME => cycle_time(number(question, 2)),
        ASKS_NANOSECOND => nanosecond(CycleTime {
            seconds: number(question, 2),
            cycle: number(question, 10),
            offset: number(question, 18),
        }),
        ASKS_JUDGEMENT => match question[FRAME..].get(..usize::from(question[1])) {
            Some(frame) => judgement(number(question, 2), frame),
            None => NO_QUESTION.into(),
        },
        _ => NO_QUESTION.into(),
    }
}

/// The cycle time of a nanosecond, with its ticks and its SYT.
fn cycle_time(nanosecond: u64) -> String {
    let time = CycleTime::of(Nanoseconds(nanosecond));
    let CycleTime { seconds, cycle, offset } = time;
    let ticks = time.ticks().0;
    let syt = time.syt().expect("a nanosecond's cycle time is in range");
    format!(
        "ns={nanosecond} seconds={seconds} cycle={cycle} offset={offset} ticks={ticks} syt={syt}"
    )
}

/// What a call answers: a number, or the one it is refused with.
fn answered(name: &str, answer: Result<u64, Refusal>) -> String {
    match answer {
        Ok(number) => format!("{name}={number}"),
        Err(refusal) => format!("{name} refused {}", refusal.number()),
    }
}

/// The nanosecond of a cycle time, and its SYT.
fn nanosecond(time: CycleTime) -> String {
    let CycleTime { seconds, cycle, offset } = time;
    let nanosecond = answered("ns", time.nanosecond().map(|nanosecond| nanosecond.0));
    let syt = answered("syt", time.syt().map(u64::from));
    format!("seconds={seconds} cycle={cycle} offset={offset} {nanosecond} {syt}")
}

/// The judgement of a frame by its SYT.
fn judgement(arrival: u64, frame: &[u8]) -> String {
    let cip = frame.first_chunk::<50>().map_or(0, |head| be64(head, 42));
    let asked = format!("L={arrival} frame={} cip={cip:016x}", frame.len());
    match judge(frame, Nanoseconds(arrival)) {
        Ok(judged) => format!("{asked} {} offset={}", judged.kind.name(), judged.offset),
        Err(refusal) => format!("{asked} refused {}", refusal.number()),
    }
}

#[cfg(test)]
mod tests {
    use super::*;
    use crate::samples::{sound, with};

    /// A question with numbers from byte 2 on, and 0xA5 in all that isn't looked at.
    fn question(asks: u8, numbers: &[u64]) -> [u8; QUESTION] {
        let mut question = [0xA5; QUESTION];
        question[0] = asks;
        for (place, number) in numbers.iter().enumerate() {
            question[2 + 8 * place..10 + 8 * place].copy_from_slice(&number.to_le_bytes());
        }
        question
    }

    /// A question that asks for a judgement.
    fn asks_judgement(arrival: u64, frame: &[u8]) -> [u8; QUESTION] {
        let mut question = question(3, &[arrival]);
        question[1] = frame.len() as u8;
        question[10..10 + frame.len()].copy_from_slice(frame);
        question
    }

    #[test]
    fn cycle_times() {
        assert_eq!(
            answer(&question(1, &[1_000_125_041])),
            "ns=1000125041 seconds=1 cycle=1 offset=1 ticks=24579073 syt=4097"
        );
        assert_eq!(
            answer(&question(1, &[u64::MAX])),
            "ns=18446744073709551615 seconds=9 cycle=5676 offset=1268 ticks=238621940 syt=50420"
        );
    }

    #[test]
    fn nanoseconds() {
        assert_eq!(
            answer(&question(2, &[1, 17, 2])),
            "seconds=1 cycle=17 offset=2 ns=1002125082 syt=4098"
        );
        assert_eq!(
            answer(&question(2, &[u64::MAX, 8000, 1 << 32])),
            "seconds=18446744073709551615 cycle=8000 offset=4294967296 ns refused 61 syt refused 61"
        );
    }

    #[test]
    fn judgements() {
        let frame = with(with(sound(1, &[0xFF; 4]), 42, 62), 49, 7);
        assert_eq!(
            answer(&asks_judgement(0, &frame)),
            "L=0 frame=54 cip=3e01000080000007 ahead offset=7"
        );
        assert_eq!(
            answer(&asks_judgement(500, &frame)),
            "L=500 frame=54 cip=3e01000080000007 late offset=-5"
        );
        assert_eq!(
            answer(&asks_judgement(0, &with(frame.clone(), 42, 63))),
            "L=0 frame=54 cip=3f01000080000007 none offset=0"
        );
        assert_eq!(
            answer(&asks_judgement(u64::MAX, &with(frame.clone(), 48, 0xFC))),
            "L=18446744073709551615 frame=54 cip=3e0100008000fc07 refused 62"
        );
        assert_eq!(
            answer(&asks_judgement(0, &frame[..49])),
            "L=0 frame=49 cip=0000000000000000 refused 11"
        );
        assert_eq!(answer(&asks_judgement(0, &[])), "L=0 frame=0 cip=0000000000000000 refused 1");
    }

    #[test]
    fn no_questions() {
        for asks in [0, 4, 255] {
            assert_eq!(answer(&question(asks, &[1, 2, 3])), NO_QUESTION);
        }
        for length in [55, 255] {
            let mut question = asks_judgement(0, &sound(1, &[]));
            question[1] = length;
            assert_eq!(answer(&question), NO_QUESTION);
        }
        for asks in 0..4 {
            assert_eq!(answer(&question(asks, &[0, 0, 0])[..63]), NO_QUESTION);
            assert_eq!(answer(&[asks]), NO_QUESTION);
        }
    }
}
