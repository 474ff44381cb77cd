//! The CIP header of IEC 61883-1.

/// Length of the CIP header, which stream_data_length counts in.
pub const CIP_HEADER: usize = 8;

/// The CIP header, without its indicators and reserved bits; by default, with zero in
/// every field.
#[allow(dead_code)] // a listing prints no field of the header itself
#[derive(Clone, Copy, Debug, Default, PartialEq, Eq)]
pub struct Cip {
    pub sid: u8,
    pub dbs: u8,
    pub fraction: u8,
    pub qpc: u8,
    pub sph: bool,
    pub dbc: u8,
    pub fmt: u8,
    pub fdf: u8,
    /// SYT where SPH is 0, the lower bits of a 24-bit FDF where SPH is 1.
    pub low_half: u16,
}

/// The fields whose change is a change of a stream's format.
#[derive(Clone, Copy, Debug, Default, PartialEq, Eq)]
pub struct Format {
    pub fmt: u8,
    pub dbs: u8,
    pub fraction: u8,
    pub sph: bool,
}

impl Cip {
    /// Takes the CIP header apart.
    pub fn parse(cip: &[u8; CIP_HEADER]) -> Cip {
        Cip {
            sid: cip[0] & 0x3F,
            dbs: cip[1],
            fraction: cip[2] >> 6,
            qpc: cip[2] >> 3 & 7,
            sph: cip[2] & 4 != 0,
            dbc: cip[3],
            fmt: cip[4] & 0x3F,
            fdf: cip[5],
            low_half: u16::from_be_bytes([cip[6], cip[7]]),
        }
    }

    /// Bytes in one data block; DBS 0 stands for 256 quadlets.
    pub fn block_size(&self) -> u32 {
        if self.dbs == 0 {
            1024
        } else {
            4 * u32::from(self.dbs)
        }
    }

    /// The whole data blocks of a payload, each with its count: DBC for the first,
    /// and one more for each after it, modulo 256.
    pub fn counted_blocks<'a>(&self, payload: &'a [u8]) -> impl Iterator<Item = (u8, &'a [u8])> {
        let dbc = self.dbc;
        payload
            .chunks_exact(self.block_size() as usize)
            .enumerate()
            .map(move |(i, block)| (dbc.wrapping_add(i as u8), block))
    }

    /// Whether the block of this count opens a source packet, which is 2^FN blocks:
    /// the lowest FN bits of the count are zero.
    pub fn opens_source_packet(&self, count: u8) -> bool {
        count.trailing_zeros() >= u32::from(self.fraction)
    }

    /// The format that the header shows.
    pub fn format(&self) -> Format {
        Format { fmt: self.fmt, dbs: self.dbs, fraction: self.fraction, sph: self.sph }
    }
}

#[cfg(test)]
mod tests {
    use super::*;

    #[test]
    fn each_field_to_its_edges() {
        let zero = Cip::parse(&[0xC0, 0, 3, 0, 0xC0, 0, 0, 0]);
        assert_eq!(zero, Cip::parse(&[0; CIP_HEADER]));
        assert_eq!(zero, Cip::default());
        assert_eq!((zero.block_size(), zero.format()), (1024, Format::default()));
        let full = Cip::parse(&[0xFF; CIP_HEADER]);
        assert_eq!((full.sid, full.dbs, full.fraction, full.qpc), (63, 255, 3, 7));
        assert_eq!((full.sph, full.dbc, full.fmt, full.fdf), (true, 255, 63, 255));
        assert_eq!((full.low_half, full.block_size()), (0xFFFF, 1020));
        assert_eq!(full.format(), Format { fmt: 63, dbs: 255, fraction: 3, sph: true });
    }

    /// A CIP header with DBS, FN and DBC, and zero in every other field.
    fn counting(dbs: u8, fraction: u8, dbc: u8) -> Cip {
        Cip::parse(&[0, dbs, fraction << 6, dbc, 0, 0, 0, 0])
    }

    #[test]
    fn blocks_and_their_counts() {
        let payload: Vec<u8> = (0..=255).cycle().take(1468).collect();
        let counted = |dbs, dbc, length| -> Vec<(u8, &[u8])> {
            counting(dbs, 0, dbc).counted_blocks(&payload[..length]).collect()
        };
        assert_eq!(counted(1, 7, 0), []);
        assert_eq!(counted(1, 7, 3), []);
        assert_eq!(counted(1, 7, 7), [(7, &payload[..4])]);
        assert_eq!(
            counted(2, 254, 24),
            [(254, &payload[..8]), (255, &payload[8..16]), (0, &payload[16..24])]
        );
        assert_eq!(counted(0, 9, 1020), []);
        assert_eq!(counted(0, 9, 1024), [(9, &payload[..1024])]);
        let many = counted(1, 10, 1468);
        assert_eq!((many.len(), many[245].0, many[246].0), (367, 255, 0));
        assert_eq!(many[366], (120, &payload[1464..]));
        // The blocks are parts of the lent payload.
        for ((_, block), part) in many.iter().zip(payload.chunks(4)) {
            assert_eq!(block.as_ptr(), part.as_ptr());
        }
    }

    #[test]
    fn counts_that_open_a_source_packet() {
        for (fraction, packet) in [(0, 1), (1, 2), (2, 4), (3, 8)] {
            let cip = counting(6, fraction, 77);
            let opening: Vec<u8> =
                (0..=255).filter(|&count| cip.opens_source_packet(count)).collect();
            let expected: Vec<u8> = (0..=255).step_by(packet).collect();
            assert_eq!(opening, expected, "FN {fraction}");
        }
    }
}
