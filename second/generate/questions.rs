//! Questions about cycle time, byte by byte.

/// Length of a question.
pub const LENGTH: usize = 64;

/// The longest frame that a question has room for.
pub const LONGEST_FRAME: usize = 54;

pub type Question = [u8; LENGTH];

/// A question with numbers from byte 2 on, and `rest` in every other byte.
fn question(asks: u8, numbers: &[u64], rest: u8) -> Question {
    let mut question = [rest; LENGTH];
    question[0] = asks;
    for (place, number) in question[2..].chunks_exact_mut(8).zip(numbers) {
        place.copy_from_slice(&number.to_le_bytes());
    }
    question
}

/// Asks for the cycle time of a nanosecond.
pub fn cycle_time_of(nanosecond: u64, rest: u8) -> Question {
    question(1, &[nanosecond], rest)
}

/// Asks for the nanosecond of a cycle time: its seconds, cycle and offset.
pub fn nanosecond_of(cycle_time: [u64; 3], rest: u8) -> Question {
    question(2, &cycle_time, rest)
}

/// Asks for the judgement of a frame, which the question has room for.
pub fn judgement_of(arrival: u64, frame: &[u8], rest: u8) -> Question {
    let mut question = question(3, &[arrival], rest);
    question[1] = frame.len() as u8;
    question[10..10 + frame.len()].copy_from_slice(frame);
    question
}
