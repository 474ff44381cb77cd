//! Captures for visit reports: many streams, each with offsets of its own kind.

use crate::captures::{Capture, SMALL};
use crate::chance::Chance;
use crate::limits::{self, LARGEST_LIMIT};
use crate::senders::{stream_ids, Sender};
use crate::times::{arrival, inside, offset, stamp, HALF_A_WRAP, LEAST_CLEAR};

/// What the frames of a stream are like for a while.
#[derive(Clone, Copy)]
enum Habit {
    /// There are none.
    Silent,
    /// They have no stamp.
    Unstamped,
    /// Their times are below 0 or past 64 bits.
    Outside,
    Late,
    Ahead,
    /// They are half a wrap away (request #106).
    Unclear,
    /// Their offsets are above the transit limit, unless it is the largest (request
    /// #107).
    Far,
    /// Their offsets are the transit limit or next to it.
    AtTheLimit,
    /// They are far, unclear or outside.
    OutOfReach,
    /// Their offsets are half a wrap, the least that is clear, or the greatest.
    AtTheEdges,
    /// Their offsets come to 0.
    Balanced,
    Any,
}

/// When a frame arrives, and its offset if it has a stamp.
type Times = (u64, Option<i32>);

/// An arrival near either end of the times, and an offset that leads past it.
fn outside(chance: &mut Chance) -> Times {
    let near = chance.below(1000) as u64;
    if chance.flip() {
        (near, Some(chance.pick(&[LEAST_CLEAR, -1_000_000, -1000])))
    } else {
        (u64::MAX - near, Some(chance.pick(&[i32::MAX, 1_000_000, 1000])))
    }
}

/// An offset above the limit, unless it is the largest; often by one.
fn above(chance: &mut Chance, limit: u32) -> i32 {
    let next = limit.saturating_add(1).min(LARGEST_LIMIT);
    let further = chance.below((LARGEST_LIMIT - next) as usize + 1) as u32;
    (next + chance.pick(&[0, 0, further, LARGEST_LIMIT - next])) as i32
}

/// Offsets that come to 0.
fn balanced(chance: &mut Chance) -> Vec<i32> {
    let some = chance.next() as i32 >> 2;
    let other = chance.next() as i32 >> 2;
    match chance.below(4) {
        0 => vec![0],
        1 => vec![some, -some],
        2 => vec![some, -some - other, other],
        _ => vec![LEAST_CLEAR, i32::MAX],
    }
}

impl Habit {
    fn any(chance: &mut Chance) -> Habit {
        chance.pick(&[
            Habit::Silent,
            Habit::Unstamped,
            Habit::Outside,
            Habit::Late,
            Habit::Ahead,
            Habit::Unclear,
            Habit::Far,
            Habit::AtTheLimit,
            Habit::OutOfReach,
            Habit::AtTheEdges,
            Habit::Balanced,
            Habit::Any,
        ])
    }

    /// The times of the next frames of a stream with this transit limit.
    fn times(self, chance: &mut Chance, limit: u32) -> Vec<Times> {
        let any = offset(chance);
        let offsets = match self {
            Habit::Silent => return vec![],
            Habit::Unstamped => return vec![(arrival(chance), None)],
            Habit::Outside => return vec![outside(chance)],
            Habit::Any => return vec![(arrival(chance), (!chance.one_in(4)).then_some(any))],
            Habit::Unclear => return vec![(arrival(chance), Some(HALF_A_WRAP))],
            Habit::Late => vec![any.min(-1 - any).max(LEAST_CLEAR)],
            Habit::Ahead => vec![any.max(-1 - any).min(limit as i32)],
            Habit::Far => vec![above(chance, limit)],
            Habit::AtTheLimit => {
                vec![(limit as i32).saturating_add(chance.pick(&[-1, 0, 1]))]
            }
            Habit::OutOfReach => match chance.below(3) {
                0 => return vec![outside(chance)],
                1 => vec![HALF_A_WRAP],
                _ => vec![above(chance, limit)],
            },
            Habit::AtTheEdges => vec![chance.pick(&[HALF_A_WRAP, LEAST_CLEAR, i32::MAX])],
            Habit::Balanced => balanced(chance),
        };
        offsets.into_iter().map(|offset| (inside(chance), Some(offset))).collect()
    }
}

/// A stream with its transit limit and its habit. Its frames have no blocks, so that
/// there is room for many.
pub struct Visitor {
    sender: Sender,
    limit: u32,
    habit: Habit,
}

impl Visitor {
    pub fn new(chance: &mut Chance, id: u64) -> Visitor {
        Visitor { sender: Sender::new(chance, id), limit: LARGEST_LIMIT, habit: Habit::any(chance) }
    }

    pub fn id(&self) -> u64 {
        self.sender.frame.stream_id
    }

    /// The transit limit that the stream is admitted with.
    pub fn limit(&self) -> u32 {
        self.limit
    }

    /// Puts in the stream's next frame, which now and then raises a flag.
    pub fn send(&mut self, chance: &mut Chance, capture: &mut Capture, times: Times) {
        let (arrival, offset) = times;
        if chance.one_in(8) {
            self.sender.stray(chance);
        }
        self.sender.most_blocks = 0;
        let mut frame = self.sender.send(chance, arrival);
        frame.sph = false;
        frame.tv = offset.is_some();
        if let Some(offset) = offset {
            frame.stamp(stamp(arrival, offset));
        }
        capture.frame(arrival, &frame.bytes());
    }

    /// Puts in frames as the stream's habit is.
    fn visit(&mut self, chance: &mut Chance, capture: &mut Capture) {
        for times in self.habit.times(chance, self.limit) {
            self.send(chance, capture, times);
        }
    }

    /// Admits the stream with this transit limit.
    pub fn admit_limited(&mut self, capture: &mut Capture, limit: u32) {
        capture.admit_limited(self.id(), limit);
        self.limit = limit;
    }

    /// Admits the stream. Where `limited`, it mostly has a transit limit.
    fn admit(&mut self, chance: &mut Chance, capture: &mut Capture, limited: bool) {
        if limited && !chance.one_in(4) {
            self.admit_limited(capture, limits::allowed(chance));
        } else {
            capture.admit(self.id());
        }
    }

    /// Admits the stream again, which is refused. It takes up another habit, so that it
    /// would show if the numbers that it had before were dropped.
    fn admit_again(&mut self, chance: &mut Chance, capture: &mut Capture, limited: bool) {
        limits::admit(chance, capture, self.id(), limited);
        self.habit = Habit::any(chance);
    }
}

/// Removes some streams and admits them again in another order, after a new one. Where
/// the table is full there is no place for that, and none of them loses its own.
fn change_places(
    chance: &mut Chance,
    capture: &mut Capture,
    visitors: &mut [Visitor],
    limited: bool,
) {
    let which: Vec<usize> =
        (0..chance.within(2, 6)).map(|_| chance.below(visitors.len())).collect();
    for &visitor in &which {
        capture.remove(visitors[visitor].id());
    }
    let id = chance.next();
    limits::admit(chance, capture, id, limited);
    for &visitor in which.iter().rev() {
        visitors[visitor].admit_again(chance, capture, limited);
    }
}

/// What comes next: frames of a stream, a removal, or an admission, often a refused one.
fn turn(chance: &mut Chance, capture: &mut Capture, visitors: &mut [Visitor], limited: bool) {
    let which = chance.below(visitors.len());
    let visitor = &mut visitors[which];
    match chance.below(24) {
        0 => limits::admit(chance, capture, visitor.id(), limited),
        1 => {
            let id = chance.next();
            limits::admit(chance, capture, id, limited);
        }
        2 => capture.remove(chance.next()),
        3 => capture.remove(visitor.id()),
        4 => {
            capture.remove(visitor.id());
            visitor.admit_again(chance, capture, limited);
        }
        5 => change_places(chance, capture, visitors, limited),
        _ => visitor.visit(chance, capture),
    }
}

/// A number of streams; the table is often full, or too small for all.
fn visitor_count(chance: &mut Chance) -> usize {
    match chance.below(4) {
        0 => chance.within(1, 4),
        1 => chance.within(5, 63),
        2 => 64,
        _ => chance.within(65, 70),
    }
}

/// Streams with all that a visit report can say of them; in three captures of four there
/// are transit limits too.
pub fn visits(chance: &mut Chance) -> Capture {
    let mut capture = Capture::new(SMALL);
    let count = visitor_count(chance);
    let ids = stream_ids(chance, count);
    let mut visitors: Vec<Visitor> = ids.iter().map(|&id| Visitor::new(chance, id)).collect();
    let limited = !chance.one_in(4);
    // All are admitted at first, or some of them only later.
    let early = if chance.flip() { count } else { chance.within(0, count) };
    for part in [0..early, early..count] {
        for visitor in &mut visitors[part] {
            visitor.admit(chance, &mut capture, limited);
        }
        for _ in 0..chance.within(5, 25 + 5 * count) {
            if capture.full() {
                break;
            }
            turn(chance, &mut capture, &mut visitors, limited);
        }
    }
    // All are admitted still, if there was a place, and must not start anew.
    if chance.flip() {
        for visitor in &visitors {
            capture.remove(visitor.id());
            limits::admit(chance, &mut capture, visitor.id(), limited);
        }
    }
    if chance.one_in(4) {
        turn(chance, &mut capture, &mut visitors, limited);
        capture.cut_last(chance);
    }
    capture
}
