//! A stream's visit: what the presentation times of its frames add up to
//! (requests #104, #106 and #107).

use crate::presentation::{Presentation, TimeKind};

/// Most offsets of a stream that are summed: those of its first ahead or late frames.
const MOST_SUMMED: u64 = 1_000_000;

/// How many frames had each kind of time; each count stays at its greatest value
/// once there.
#[derive(Clone, Copy, Debug, Default, PartialEq, Eq)]
pub struct KindCounts {
    pub none: u64,
    pub cut: u64,
    pub outside: u64,
    pub late: u64,
    pub ahead: u64,
    pub unclear: u64,
    pub far: u64,
}

/// What one offset or more come to. The mean is the sum over the count.
#[derive(Clone, Copy, Debug, PartialEq, Eq)]
pub struct Summary {
    pub smallest: i32,
    pub largest: i32,
    /// Never near its own edges, since at most `MOST_SUMMED` offsets are in it.
    pub sum: i64,
    pub count: u64,
}

/// The visit of a stream, from its admission on.
#[derive(Clone, Copy, Debug, Default, PartialEq, Eq)]
pub struct Visit {
    pub kinds: KindCounts,
    /// Over the offsets that are summed, if there is one.
    pub summary: Option<Summary>,
    /// Ahead or late frames after those; stays at its greatest value once there.
    pub not_summed: u64,
}

/// Counts one more, up to the greatest count.
fn count(counter: &mut u64) {
    *counter = counter.saturating_add(1);
}

impl KindCounts {
    /// The count of a kind.
    fn of(&mut self, kind: TimeKind) -> &mut u64 {
        match kind {
            TimeKind::None => &mut self.none,
            TimeKind::Cut => &mut self.cut,
            TimeKind::Outside => &mut self.outside,
            TimeKind::Late => &mut self.late,
            TimeKind::Ahead => &mut self.ahead,
            TimeKind::Unclear => &mut self.unclear,
            TimeKind::Far => &mut self.far,
        }
    }
}

impl Summary {
    /// What one offset comes to.
    fn of(offset: i32) -> Summary {
        Summary { smallest: offset, largest: offset, sum: i64::from(offset), count: 1 }
    }

    /// Takes in one more offset.
    fn add(&mut self, offset: i32) {
        self.smallest = self.smallest.min(offset);
        self.largest = self.largest.max(offset);
        self.sum += i64::from(offset);
        self.count += 1;
    }
}

impl Visit {
    /// Takes in an accepted frame, by its presentation time.
    pub fn add(&mut self, presentation: &Presentation) {
        let Presentation { kind, offset, .. } = *presentation;
        count(self.kinds.of(kind));
        if matches!(kind, TimeKind::Late | TimeKind::Ahead) {
            self.sum(offset);
        }
    }

    /// Sums an offset if it is among the first, or else counts it only.
    fn sum(&mut self, offset: i32) {
        match &mut self.summary {
            None => self.summary = Some(Summary::of(offset)),
            Some(summary) if summary.count < MOST_SUMMED => summary.add(offset),
            Some(_) => count(&mut self.not_summed),
        }
    }
}

#[cfg(test)]
mod tests {
    use super::*;

    const KINDS: [TimeKind; 7] = [
        TimeKind::None,
        TimeKind::Cut,
        TimeKind::Outside,
        TimeKind::Late,
        TimeKind::Ahead,
        TimeKind::Unclear,
        TimeKind::Far,
    ];

    /// The least offset of a late frame; half a wrap, one below it, is unclear.
    const LEAST: i32 = -2_147_483_647;

    /// A presentation time; the time itself plays no part.
    fn time(kind: TimeKind, offset: i32) -> Presentation {
        Presentation { kind, offset, time: 0 }
    }

    /// The visit of frames with these offsets, each late or ahead.
    fn visit(offsets: &[i32]) -> Visit {
        let mut visit = Visit::default();
        for &offset in offsets {
            let kind = if offset < 0 { TimeKind::Late } else { TimeKind::Ahead };
            visit.add(&time(kind, offset));
        }
        visit
    }

    /// Smallest and largest of these offsets, their sum and their count.
    fn summed(offsets: &[i32]) -> (i32, i32, i64, u64) {
        let Summary { smallest, largest, sum, count } = visit(offsets).summary.unwrap();
        (smallest, largest, sum, count)
    }

    #[test]
    fn each_kind_is_counted() {
        let mut visit = Visit::default();
        for (kind, times) in KINDS.into_iter().zip(1..) {
            for _ in 0..times {
                visit.add(&time(kind, 7));
            }
        }
        let kinds =
            KindCounts { none: 1, cut: 2, outside: 3, late: 4, ahead: 5, unclear: 6, far: 7 };
        assert_eq!(visit.kinds, kinds);
        let nine = Summary { smallest: 7, largest: 7, sum: 63, count: 9 };
        assert_eq!((visit.summary, visit.not_summed), (Some(nine), 0));
    }

    #[test]
    fn only_ahead_or_late_frames_are_summed() {
        let mut visit = Visit::default();
        for kind in [TimeKind::None, TimeKind::Cut, TimeKind::Outside, TimeKind::Unclear] {
            visit.add(&time(kind, i32::MIN));
        }
        visit.add(&time(TimeKind::Far, i32::MAX));
        assert_eq!((visit.summary, visit.not_summed), (None, 0));
        visit.add(&time(TimeKind::Late, -3));
        visit.add(&time(TimeKind::Outside, i32::MAX));
        visit.add(&time(TimeKind::Unclear, i32::MIN));
        visit.add(&time(TimeKind::Far, i32::MAX));
        visit.add(&time(TimeKind::Ahead, 5));
        let two = Summary { smallest: -3, largest: 5, sum: 2, count: 2 };
        assert_eq!((visit.summary, visit.not_summed), (Some(two), 0));
    }

    #[test]
    fn sums() {
        let (least, greatest) = (LEAST, i32::MAX);
        assert_eq!(summed(&[-10, -1, -5]), (-10, -1, -16, 3));
        assert_eq!(summed(&[0]), (0, 0, 0, 1));
        assert_eq!(summed(&[5, -5]), (-5, 5, 0, 2));
        assert_eq!(summed(&[4, 2]), (2, 4, 6, 2));
        assert_eq!(summed(&[least; 3]), (least, least, -6_442_450_941, 3));
        assert_eq!(summed(&[greatest; 2]), (greatest, greatest, 4_294_967_294, 2));
        assert_eq!(summed(&[greatest, least, 1]), (least, greatest, 1, 3));
    }

    #[test]
    fn the_millionth_is_summed() {
        let mut offsets = vec![i32::MAX; 999_999];
        offsets.push(-1);
        assert_eq!(summed(&offsets), (-1, i32::MAX, 2_147_481_499_516_352, 1_000_000));
        assert_eq!(visit(&offsets).not_summed, 0);
    }

    #[test]
    fn none_after_the_millionth_is_summed() {
        let mut offsets = vec![-7; 1_000_000];
        offsets.extend([i32::MAX, LEAST, 0]);
        assert_eq!(summed(&offsets), (-7, -7, -7_000_000, 1_000_000));
        let mut visit = visit(&offsets);
        // An unclear one isn't among them, and no far one.
        visit.add(&time(TimeKind::Unclear, i32::MIN));
        visit.add(&time(TimeKind::Far, 9));
        assert_eq!(visit.not_summed, 3);
        // They are counted by kind all the same.
        let kinds =
            KindCounts { late: 1_000_001, ahead: 2, unclear: 1, far: 1, ..KindCounts::default() };
        assert_eq!(visit.kinds, kinds);
    }

    #[test]
    fn far_frames_take_no_place_among_the_million() {
        let mut visit = visit(&[-7; 999_999]);
        visit.add(&time(TimeKind::Far, i32::MAX));
        visit.add(&time(TimeKind::Ahead, 9));
        let all = Summary { smallest: -7, largest: 9, sum: -6_999_984, count: 1_000_000 };
        assert_eq!((visit.summary, visit.not_summed), (Some(all), 0));
        visit.add(&time(TimeKind::Far, i32::MAX));
        assert_eq!((visit.summary, visit.not_summed), (Some(all), 0));
        assert_eq!(visit.kinds.far, 2);
    }

    #[test]
    fn counts_stay_at_the_greatest() {
        let mut visit = visit(&[6]);
        visit.summary.as_mut().unwrap().count = MOST_SUMMED;
        for kind in KINDS {
            *visit.kinds.of(kind) = u64::MAX;
        }
        visit.not_summed = u64::MAX - 1;
        let before = visit;
        for kind in KINDS {
            visit.add(&time(kind, 1));
        }
        assert_eq!(visit, Visit { not_summed: u64::MAX, ..before });
    }
}
