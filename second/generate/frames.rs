//! Frames, each field by its own name, sound or not.

use crate::chance::Chance;

/// Longest payload of a frame, after a CIP header or without one.
pub const LONGEST_PAYLOAD: usize = 1468;
pub const LONGEST_BARE_PAYLOAD: usize = 1476;

/// Every field of a frame, those that readers ignore too.
#[derive(Clone, Default)]
pub struct Frame {
    pub destination: [u8; 6],
    pub source: [u8; 6],
    pub tpid: u16,
    pub pcp: u8,
    pub cfi: bool,
    pub vid: u16,
    pub ethertype: u16,
    pub cd: bool,
    pub subtype: u8,
    pub sv: bool,
    pub version: u8,
    pub mr: bool,
    pub r: bool,
    pub gv: bool,
    pub tv: bool,
    pub sequence: u8,
    pub reserved: u8,
    pub tu: bool,
    pub stream_id: u64,
    pub timestamp: u32,
    pub gateway_info: u32,
    pub stream_data_length: u16,
    pub tag: u8,
    pub channel: u8,
    pub tcode: u8,
    pub sy: u8,
    /// Whether the payload has no CIP header before it, as with tag 0 (request #108).
    pub bare: bool,
    pub indicators: [u8; 2],
    pub sid: u8,
    pub dbs: u8,
    pub fraction: u8,
    pub qpc: u8,
    pub sph: bool,
    pub cip_reserved: u8,
    pub dbc: u8,
    pub fmt: u8,
    pub fdf: u8,
    pub low_half: u16,
    pub payload: Vec<u8>,
    pub padding: Vec<u8>,
}

/// Bytes in a block.
pub fn block_size(dbs: u8) -> usize {
    if dbs == 0 {
        1024
    } else {
        4 * usize::from(dbs)
    }
}

impl Frame {
    /// A sound frame of the stream; all that may be anything is anything, and
    /// the payload is empty.
    pub fn sound(chance: &mut Chance, stream_id: u64) -> Frame {
        let mut destination = [0; 6];
        destination.copy_from_slice(&chance.bytes(6));
        destination[0] |= 1;
        let mut source = [0; 6];
        source.copy_from_slice(&chance.bytes(6));
        source[0] &= !1;
        Frame {
            destination,
            source,
            tpid: 0x8100,
            pcp: chance.byte() & 7,
            cfi: false,
            vid: chance.next() as u16 & 0xFFF,
            ethertype: 0x22F0,
            cd: false,
            subtype: 0,
            sv: true,
            version: 0,
            mr: chance.flip(),
            r: chance.flip(),
            gv: chance.flip(),
            tv: true,
            sequence: chance.byte(),
            reserved: chance.byte() & 0x7F,
            tu: chance.flip(),
            stream_id,
            timestamp: chance.next() as u32,
            gateway_info: chance.next() as u32,
            stream_data_length: 8,
            tag: 1,
            channel: chance.byte() & 0x3F,
            tcode: chance.byte() & 0xF,
            sy: chance.byte() & 0xF,
            bare: false,
            indicators: [chance.byte() & 3, chance.byte() & 3],
            sid: chance.byte() & 0x3F,
            dbs: 1,
            fraction: 0,
            qpc: 0,
            sph: false,
            cip_reserved: chance.byte() & 3,
            dbc: chance.byte(),
            fmt: chance.byte() & 0x3F,
            fdf: chance.byte(),
            low_half: chance.next() as u16,
            payload: Vec::new(),
            padding: Vec::new(),
        }
    }

    /// Sets the payload, and stream_data_length by it.
    pub fn carry(&mut self, payload: Vec<u8>) {
        self.payload = payload;
        self.stream_data_length = self.data_length();
    }

    /// Makes the frame one of tag 0, or of tag 1; its payload is yet to be set.
    pub fn choose_bare(&mut self, bare: bool) {
        (self.tag, self.bare) = (u8::from(!bare), bare);
    }

    /// Makes the frame one of tag 0 with this payload.
    pub fn carry_bare(&mut self, payload: Vec<u8>) {
        self.choose_bare(true);
        self.carry(payload);
    }

    /// The stream_data_length of all the payload, with the CIP header if there is one.
    pub fn data_length(&self) -> u16 {
        self.payload.len() as u16 + if self.bare { 0 } else { 8 }
    }

    /// Sets bytes after the payload, at most as many as the longest frame has room for.
    pub fn pad(&mut self, mut padding: Vec<u8>) {
        padding.truncate(LONGEST_BARE_PAYLOAD - usize::from(self.data_length()));
        self.padding = padding;
    }

    /// Whole blocks in the payload.
    pub fn blocks(&self) -> usize {
        if self.bare {
            0
        } else {
            self.payload.len() / block_size(self.dbs)
        }
    }

    /// Blocks before the first that opens a source packet, whether or not the frame
    /// has so many.
    pub fn blocks_before_start(&self) -> usize {
        usize::from(self.dbc.wrapping_neg() % (1 << self.fraction))
    }

    /// Sets the stamp where the frame has one.
    pub fn stamp(&mut self, stamp: u32) {
        if self.bare || !self.sph {
            self.timestamp = stamp;
            return;
        }
        let start = self.blocks_before_start() * block_size(self.dbs);
        if let Some(header) = self.payload.get_mut(start..start + 4) {
            header.copy_from_slice(&stamp.to_be_bytes());
        }
    }

    /// The greatest stream_data_length that the frame has room for.
    pub fn room(&self) -> u16 {
        self.data_length() + self.padding.len() as u16
    }

    /// The CIP header, whether or not the frame has one.
    pub fn cip_header(&self) -> [u8; 8] {
        let [high, low] = self.low_half.to_be_bytes();
        [
            self.indicators[0] << 6 | self.sid,
            self.dbs,
            self.fraction << 6 | self.qpc << 3 | u8::from(self.sph) << 2 | self.cip_reserved,
            self.dbc,
            self.indicators[1] << 6 | self.fmt,
            self.fdf,
            high,
            low,
        ]
    }

    pub fn bytes(&self) -> Vec<u8> {
        let bit = |set: bool, at: u8| u8::from(set) << at;
        let mut out = Vec::with_capacity(50 + self.payload.len() + self.padding.len());
        out.extend_from_slice(&self.destination);
        out.extend_from_slice(&self.source);
        out.extend_from_slice(&self.tpid.to_be_bytes());
        let tci = u16::from(self.pcp) << 13 | u16::from(self.cfi) << 12 | self.vid;
        out.extend_from_slice(&tci.to_be_bytes());
        out.extend_from_slice(&self.ethertype.to_be_bytes());
        out.push(bit(self.cd, 7) | self.subtype);
        let flags = bit(self.mr, 3) | bit(self.r, 2) | bit(self.gv, 1) | bit(self.tv, 0);
        out.push(bit(self.sv, 7) | self.version << 4 | flags);
        out.push(self.sequence);
        out.push(self.reserved << 1 | bit(self.tu, 0));
        out.extend_from_slice(&self.stream_id.to_be_bytes());
        out.extend_from_slice(&self.timestamp.to_be_bytes());
        out.extend_from_slice(&self.gateway_info.to_be_bytes());
        out.extend_from_slice(&self.stream_data_length.to_be_bytes());
        out.push(self.tag << 6 | self.channel);
        out.push(self.tcode << 4 | self.sy);
        if !self.bare {
            out.extend_from_slice(&self.cip_header());
        }
        out.extend_from_slice(&self.payload);
        out.extend_from_slice(&self.padding);
        out
    }
}
