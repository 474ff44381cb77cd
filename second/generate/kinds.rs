//! Which kind of capture each index stands for.

use crate::cameras::cameras;
use crate::captures::SMALL;
use crate::chance::Chance;
use crate::edges::{admissions, blocks, lengths, padding_counts, records, refusals, times};
use crate::noise::{noise, turned_bits, turned_bytes};
use crate::removals::removals;
use crate::source_packets::source_packets;
use crate::traffic::{cut, long, traffic};
use crate::transit::transit_limits;
use crate::visits::visits;

/// The capture of this index.
pub fn capture(seed: u64, index: u64) -> Vec<u8> {
    let chance = &mut Chance::new(seed, index);
    if index == 0 {
        return Vec::new();
    }
    if index % 100 == 50 {
        return long(chance).bytes;
    }
    let capture = match index % 26 {
        0 | 24 => refusals(chance),
        1 => lengths(chance),
        2 => admissions(chance),
        3 => records(chance),
        4 | 5 => times(chance),
        6 | 7 => blocks(chance),
        8 => noise(chance),
        9 => turned_bits(chance),
        10 => turned_bytes(chance),
        11 => cut(chance),
        12 => source_packets(chance),
        13 | 14 => visits(chance),
        15 => padding_counts(chance),
        16 | 17 => transit_limits(chance),
        18..=20 => cameras(chance),
        21..=23 => removals(chance),
        _ => {
            let records = chance.within(5, 190);
            traffic(chance, SMALL, records)
        }
    };
    capture.bytes
}
