//! A capture with more frames of a stream than a visit report sums.

use crate::captures::Capture;
use crate::chance::Chance;
use crate::times::{HALF_A_WRAP, LEAST_CLEAR};
use crate::visits::Visitor;
use std::fs::File;
use std::io::{self, BufWriter, Write};
use std::path::Path;

/// Ahead or late frames of a stream that a visit report sums.
const MOST_SUMMED: u64 = 1_000_000;

/// An arrival from which every offset but half a wrap leads to a time, as from the
/// later ones here.
const FIRST_ARRIVAL: u64 = 1 << 40;

/// The transit limits of the three streams (request #107).
const OVER_LIMIT: u32 = 2_000_000;
const EXACT_LIMIT: u32 = 2_147_483_646;
const UNDER_LIMIT: u32 = 0;

/// Puts in, for each stream, a frame without a stamp, one whose time is below 0, one
/// half a wrap away and two that are far, and a removal and two admissions, which are
/// refused; none of them counts towards the million, and none starts it anew.
fn put_others(chance: &mut Chance, capture: &mut Capture, visitors: [&mut Visitor; 3]) {
    for visitor in visitors {
        visitor.send(chance, capture, (FIRST_ARRIVAL, None));
        visitor.send(chance, capture, (0, Some(LEAST_CLEAR)));
        visitor.send(chance, capture, (FIRST_ARRIVAL, Some(HALF_A_WRAP)));
        for offset in [visitor.limit() as i32 + 1, i32::MAX] {
            visitor.send(chance, capture, (FIRST_ARRIVAL, Some(offset)));
        }
        capture.remove(visitor.id());
        capture.admit(visitor.id());
        capture.admit_limited(visitor.id(), 7);
    }
}

/// Writes a capture of three streams whose frames take turns. One has exactly a million
/// ahead or late frames, one has one fewer, and one goes on past the million with offsets
/// that would show in all that is summed.
pub fn write_million(path: &Path) -> io::Result<()> {
    let mut out = BufWriter::with_capacity(1 << 20, File::create(path)?);
    let chance = &mut Chance::new(104, 0);
    let mut capture = Capture::new(usize::MAX);
    let [mut over, mut exact, mut under] = [3, 1, 2].map(|id| Visitor::new(chance, id));
    over.admit_limited(&mut capture, OVER_LIMIT);
    exact.admit_limited(&mut capture, EXACT_LIMIT);
    under.admit_limited(&mut capture, UNDER_LIMIT);

    for round in 1..=MOST_SUMMED {
        let at = FIRST_ARRIVAL + 125_000 * round;
        let near = chance.below(2_000_001) as i32 - 1_000_000;
        over.send(chance, &mut capture, (at, Some(near)));
        // The millionth is one that shows.
        let wide = if round < MOST_SUMMED { EXACT_LIMIT as i32 } else { LEAST_CLEAR };
        exact.send(chance, &mut capture, (at, Some(wide)));
        if round < MOST_SUMMED {
            under.send(chance, &mut capture, (at, Some(LEAST_CLEAR)));
        }
        if round % (MOST_SUMMED / 4) == 0 {
            put_others(chance, &mut capture, [&mut over, &mut exact, &mut under]);
        }
        capture.write_out(&mut out)?;
    }

    let most = OVER_LIMIT as i32;
    for offset in [most, LEAST_CLEAR, LEAST_CLEAR, -1, 0, LEAST_CLEAR, most] {
        over.send(chance, &mut capture, (FIRST_ARRIVAL, Some(offset)));
    }
    put_others(chance, &mut capture, [&mut over, &mut exact, &mut under]);
    capture.write_out(&mut out)?;
    out.flush()
}
