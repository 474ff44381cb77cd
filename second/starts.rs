//! Cases of source packets (request #102).
//!
//! A frame that is listed as one and has SPH 1 is some of these, each after its FN, as
//! in `sph fn=2 start last`. A start is a block that opens a source packet.
//!
//! - `start first`, `start within`, `start last`: the first start is the first block,
//!   one further on, the last of several blocks.
//! - `no start`: there are blocks, and none is a start.
//! - `dbs=0 start`, `dbs=0 no start`: one of these instead, for the block of DBS 0.
//! - `no blocks`.
//! - `wrap up to start`: the count comes round to 0 after the first block, and the
//!   first start is there or further on.
//! - `wrap after start`: the count comes round to 0 after the first start.
//! - `several starts`.
//!
//! It is reckoned here from DBC, FN, DBS and the number of blocks, count by count, and
//! not from what the room of presentation times makes of the frame.

use crate::cip::Cip;
use crate::outcome::Outcome;
use crate::refusal::Refusal;
use crate::table::Reception;

/// What is so of a frame with SPH 1.
fn cases(cip: &Cip, blocks: u32) -> Vec<&'static str> {
    let count = |block| (u32::from(cip.dbc) + block) % 256;
    let packet = 1 << cip.fraction;
    let starts: Vec<u32> = (0..blocks).filter(|&block| count(block) % packet == 0).collect();
    let Some(&first) = starts.first() else {
        return vec![match (blocks, cip.dbs) {
            (0, _) => "no blocks",
            (_, 0) => "dbs=0 no start",
            _ => "no start",
        }];
    };
    let mut cases = vec![match first {
        _ if cip.dbs == 0 => "dbs=0 start",
        0 => "start first",
        _ if first == blocks - 1 => "start last",
        _ => "start within",
    }];
    let wraps = |block| count(block) == 0;
    if (1..=first).any(wraps) {
        cases.push("wrap up to start");
    }
    if (first + 1..blocks).any(wraps) {
        cases.push("wrap after start");
    }
    if starts.len() > 1 {
        cases.push("several starts");
    }
    cases
}

/// What a record that comes to `outcome` is a case of.
pub fn start_cases(outcome: &Result<Outcome, Refusal>) -> Vec<String> {
    match outcome {
        Ok(Outcome::Frame(Reception { frame, .. })) if frame.cip.sph => {
            let line = |case| format!("sph fn={} {case}", frame.cip.fraction);
            cases(&frame.cip, frame.blocks).into_iter().map(line).collect()
        }
        _ => vec![],
    }
}

#[cfg(test)]
mod tests {
    use super::*;

    /// What is so of a frame with these fields, on one line.
    fn said(fraction: u8, dbc: u8, dbs: u8, blocks: u32) -> String {
        cases(&Cip::parse(&[0, dbs, fraction << 6 | 4, dbc, 0, 0, 0, 0]), blocks).join(", ")
    }

    #[test]
    fn where_the_first_start_is() {
        for fraction in 0..=3 {
            assert_eq!(said(fraction, 8, 1, 0), "no blocks");
            assert_eq!(said(fraction, 9, 0, 0), "no blocks");
            assert_eq!(said(fraction, 8, 1, 1), "start first");
            assert_eq!(said(fraction, 8, 0, 1), "dbs=0 start");
        }
        assert_eq!(said(0, 9, 0, 1), "dbs=0 start");
        for (fraction, packet) in [(1, 2), (2, 4), (3, 8)] {
            for before in 1..packet {
                let dbc = 16 - before as u8;
                assert_eq!(said(fraction, dbc, 0, 1), "dbs=0 no start");
                assert_eq!(said(fraction, dbc, 1, before), "no start");
                assert_eq!(said(fraction, dbc, 1, before + 1), "start last");
                assert_eq!(said(fraction, dbc, 1, before + packet), "start within");
                assert_eq!(
                    said(fraction, dbc, 1, before + packet + 1),
                    "start within, several starts"
                );
            }
        }
    }

    #[test]
    fn where_the_count_wraps() {
        assert_eq!(said(3, 0, 1, 8), "start first");
        assert_eq!(said(3, 249, 1, 7), "no start");
        assert_eq!(said(3, 249, 1, 8), "start last, wrap up to start");
        assert_eq!(said(3, 249, 1, 9), "start within, wrap up to start");
        assert_eq!(said(0, 255, 1, 1), "start first");
        assert_eq!(said(0, 255, 1, 2), "start first, wrap after start, several starts");
        assert_eq!(said(3, 247, 1, 9), "start within");
        assert_eq!(said(3, 247, 1, 10), "start within, wrap after start, several starts");
        assert_eq!(
            said(3, 255, 1, 258),
            "start within, wrap up to start, wrap after start, several starts"
        );
    }
}
