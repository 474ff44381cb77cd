//! Frames: an Ethernet header with its VLAN tag, an AVTPDU and, with tag 1, a CIP header.

use crate::cip::{Cip, CIP_HEADER};
use crate::refusal::Refusal;
use crate::wire::{be16, be32, be48, be64};

/// Ethernet header with its VLAN tag (18 bytes) and the AVTPDU's stream header
/// (24 bytes).
const HEADERS: usize = 42;
/// Longest frame, without its frame check.
const LONGEST_FRAME: usize = 1518;

const TPID_VLAN: u16 = 0x8100;
const ETHERTYPE_AVTP: u16 = 0x22F0;

/// The tag field of an accepted frame: what its stream data opens with.
#[derive(Clone, Copy, Debug, Default, PartialEq, Eq)]
pub enum Tag {
    /// 0: the payload, without a CIP header, as IIDC cameras send it (request #108).
    #[default]
    NoCip,
    /// 1: a CIP header.
    Cip,
}

/// An accepted frame: what its Ethernet header, its AVTPDU and its CIP header
/// say, and the payload as a part of the lent frame.
#[allow(dead_code)] // a listing prints no field of the frame itself
#[derive(Clone, Copy, Debug, PartialEq, Eq)]
pub struct Frame<'a> {
    pub destination: u64,
    pub source: u64,
    pub pcp: u8,
    pub vid: u16,
    pub mr: bool,
    pub gv: bool,
    pub tv: bool,
    pub sequence: u8,
    pub tu: bool,
    pub stream_id: u64,
    pub timestamp: u32,
    pub gateway_info: u32,
    pub stream_data_length: u16,
    pub tag: Tag,
    pub channel: u8,
    pub sy: u8,
    /// Zero in every field where there is no CIP header.
    pub cip: Cip,
    /// Whole data blocks in the payload; none where there is no CIP header.
    pub blocks: u32,
    pub payload: &'a [u8],
}

/// Checks 3 to 10: all that is wrong in the Ethernet header and the first bytes
/// of the AVTPDU, whatever the frame's length.
fn check_headers(head: &[u8; HEADERS]) -> Result<(), Refusal> {
    if be16(head, 12) != TPID_VLAN {
        return Err(Refusal::Tpid);
    }
    if head[14] & 0x10 != 0 {
        return Err(Refusal::Cfi);
    }
    if be16(head, 16) != ETHERTYPE_AVTP {
        return Err(Refusal::Ethertype);
    }
    if head[18] & 0x80 != 0 {
        return Err(Refusal::Control);
    }
    if head[18] & 0x7F != 0 {
        return Err(Refusal::Subtype);
    }
    if head[19] & 0x70 != 0 {
        return Err(Refusal::Version);
    }
    if head[19] & 0x80 == 0 {
        return Err(Refusal::StreamIdNotValid);
    }
    if head[0] & 1 == 0 || head[6] & 1 != 0 {
        return Err(Refusal::Addresses);
    }
    Ok(())
}

/// Takes the stream data of tag 1 apart into its CIP header, the number of its whole data
/// blocks and its payload, or answers the first of the numbers 13, 16 (request #105) and
/// 14, in this order, that applies.
fn parse_cip_data(data: &[u8]) -> Result<(Cip, u32, &[u8]), Refusal> {
    let Some((cip, payload)) = data.split_first_chunk::<CIP_HEADER>() else {
        return Err(Refusal::LengthUnderCip);
    };
    let cip = Cip::parse(cip);
    if cip.qpc != 0 {
        return Err(Refusal::PaddingCount);
    }
    let (size, block) = (payload.len() as u32, cip.block_size());
    if size % block != 0 {
        return Err(Refusal::BrokenBlock);
    }
    Ok((cip, size / block, payload))
}

/// Reads a frame, or answers the first of the numbers 1 to 12, and for tag 1 those of
/// its stream data, that applies.
pub fn parse_frame(frame: &[u8]) -> Result<Frame<'_>, Refusal> {
    let Some((head, rest)) = frame.split_first_chunk::<HEADERS>() else {
        return Err(Refusal::FrameTooShort);
    };
    if frame.len() > LONGEST_FRAME {
        return Err(Refusal::FrameTooLong);
    }
    check_headers(head)?;

    let stream_data_length = be16(head, 38);
    let Some(data) = rest.get(..usize::from(stream_data_length)) else {
        return Err(Refusal::LengthOverFrame);
    };
    let (tag, (cip, blocks, payload)) = match head[40] >> 6 {
        0 => (Tag::NoCip, (Cip::default(), 0, data)),
        1 => (Tag::Cip, parse_cip_data(data)?),
        _ => return Err(Refusal::Tag),
    };

    Ok(Frame {
        destination: be48(head, 0),
        source: be48(head, 6),
        pcp: head[14] >> 5,
        vid: be16(head, 14) & 0x0FFF,
        mr: head[19] & 0x08 != 0,
        gv: head[19] & 0x02 != 0,
        tv: head[19] & 0x01 != 0,
        sequence: head[20],
        tu: head[21] & 0x01 != 0,
        stream_id: be64(head, 22),
        timestamp: be32(head, 30),
        gateway_info: be32(head, 34),
        stream_data_length,
        tag,
        channel: head[40] & 0x3F,
        sy: head[41] & 0x0F,
        cip,
        blocks,
        payload,
    })
}

#[cfg(test)]
mod tests {
    use super::*;
    use crate::samples::{of_length, sound, tagged_0, with};

    /// The number that a frame is refused with, or 0.
    fn refusal(frame: &[u8]) -> u64 {
        parse_frame(frame).map_or_else(Refusal::number, |_| 0)
    }

    #[test]
    fn m1_41_bytes() {
        assert_eq!(refusal(&sound(1, &[])[..41]), 1);
        assert_eq!(refusal(&[]), 1);
    }

    #[test]
    fn m2_42_bytes_length_0() {
        assert_eq!(refusal(&of_length(sound(1, &[]), 0)[..42]), 13);
    }

    #[test]
    fn m3_no_blocks() {
        let frame = sound(1, &[]);
        let read = parse_frame(&frame).unwrap();
        assert_eq!((frame.len(), read.stream_data_length), (50, 8));
        assert_eq!((read.blocks, read.payload.len()), (0, 0));
    }

    #[test]
    fn m4_m5_dbs_0() {
        let whole = with(sound(1, &[7; 1024]), 43, 0);
        assert_eq!(parse_frame(&whole).unwrap().stream_data_length, 1032);
        assert_eq!(parse_frame(&whole).unwrap().blocks, 1);
        let broken = with(sound(1, &[7; 1020]), 43, 0);
        assert_eq!(refusal(&broken), 14);
    }

    #[test]
    fn frame_lengths() {
        assert_eq!(refusal(&sound(1, &[0; 1468])), 0);
        let padded = of_length(sound(1, &[0; 1468]), 8);
        assert_eq!((padded.len(), refusal(&padded)), (1518, 0));
        assert_eq!(refusal(&[&padded[..], &[0]].concat()), 2);
        assert_eq!(refusal(&[0; 1519]), 2);
    }

    #[test]
    fn each_check() {
        let frame = || sound(1, &[1, 2, 3, 4]);
        assert_eq!(refusal(&with(frame(), 13, 1)), 3);
        assert_eq!(refusal(&with(frame(), 12, 0x88)), 3);
        assert_eq!(refusal(&with(frame(), 14, 0x10)), 4);
        assert_eq!(refusal(&with(frame(), 17, 0xF1)), 5);
        assert_eq!(refusal(&with(frame(), 18, 0x80)), 6);
        assert_eq!(refusal(&with(frame(), 18, 0x81)), 6);
        assert_eq!(refusal(&with(frame(), 18, 0x01)), 7);
        assert_eq!(refusal(&with(frame(), 19, 0x91)), 8);
        assert_eq!(refusal(&with(frame(), 19, 0x41)), 8);
        assert_eq!(refusal(&with(frame(), 19, 0x01)), 9);
        assert_eq!(refusal(&with(frame(), 0, 0x90)), 10);
        assert_eq!(refusal(&with(frame(), 6, 0x01)), 10);
        assert_eq!(refusal(&of_length(frame(), 13)), 11);
        assert_eq!(refusal(&with(of_length(frame(), 13), 40, 0x80)), 11);
        assert_eq!(refusal(&with(frame(), 40, 0x80)), 12);
        assert_eq!(refusal(&with(frame(), 40, 0xC0)), 12);
        assert_eq!(refusal(&with(of_length(frame(), 0), 40, 0x80)), 12);
        assert_eq!(refusal(&with(of_length(frame(), 0), 40, 0xC0)), 12);
        assert_eq!(refusal(&with(of_length(frame(), 11), 40, 0xBF)), 12);
        assert_eq!(refusal(&of_length(frame(), 7)), 13);
        assert_eq!(refusal(&of_length(frame(), 8)), 0);
        assert_eq!(refusal(&of_length(frame(), 11)), 14);
        assert_eq!(refusal(&with(frame(), 43, 2)), 14);
    }

    #[test]
    fn qpc_that_is_not_0() {
        let with_qpc = |frame, qpc: u8| with(frame, 44, qpc << 3);
        for qpc in 1..=7 {
            assert_eq!(refusal(&with_qpc(sound(1, &[]), qpc)), 16);
            assert_eq!(refusal(&with_qpc(sound(1, &[0; 4]), qpc)), 16);
        }
        // With all the bits around it; these alone are accepted.
        for qpc in [1, 2, 4] {
            assert_eq!(refusal(&with(sound(1, &[]), 44, 0xC7 | qpc << 3)), 16);
        }
        for around in [0xC0, 0x04, 0x03, 0xC7] {
            assert_eq!(refusal(&with(sound(1, &[]), 44, around)), 0);
        }
        // After 12 and 13, though the frame goes on to QPC, and before 14.
        assert_eq!(refusal(&with_qpc(with(sound(1, &[]), 40, 0x80), 3)), 12);
        for (length, kept) in [(3, 45), (7, 49), (7, 50)] {
            let under_cip = with_qpc(of_length(sound(1, &[]), length), 3);
            assert_eq!(refusal(&under_cip[..kept]), 13);
        }
        assert_eq!(refusal(&with_qpc(sound(1, &[0; 3]), 3)), 16);
        assert_eq!(refusal(&with_qpc(with(sound(1, &[0; 4]), 43, 2), 3)), 16);
        assert_eq!(refusal(&with_qpc(with(sound(1, &[0; 1020]), 43, 0), 3)), 16);
    }

    #[test]
    fn all_fields() {
        let head: [u8; 50] = [
            0x91, 0xE0, 0xF0, 0x00, 0x0E, 0x80, // destination
            0x02, 0x1B, 0xC5, 0x01, 0x02, 0x03, // source
            0x81, 0x00, 0x6F, 0xFE, 0x22, 0xF0, // PCP 3, VID 4094
            0x00, 0x8E, 0xC8, 0xFF, // mr, r and gv; reserved bits and tu
            0x01, 0x23, 0x45, 0x67, 0x89, 0xAB, 0xCD, 0xEF, // stream id
            0xFE, 0xDC, 0xBA, 0x98, 0x76, 0x54, 0x32, 0x10, // timestamp, gateway info
            0x00, 0x0C, 0x7F, 0x35, // length 12, tag 1, channel 63, tcode 3, sy 5
            0xEA, 0x01, 0x83, 0xFA, // SID 42, DBS 1, FN 2, QPC 0, DBC 250
            0x50, 0x84, 0xAB, 0xCD, // FMT 16, FDF 0x84
        ];
        let frame = [&head[..], &[9, 8, 7, 6], &[0xFF; 3]].concat();
        let cip = Cip {
            sid: 42,
            dbs: 1,
            fraction: 2,
            qpc: 0,
            sph: false,
            dbc: 250,
            fmt: 16,
            fdf: 0x84,
            low_half: 0xABCD,
        };
        let read = Frame {
            destination: 0x91E0_F000_0E80,
            source: 0x021B_C501_0203,
            pcp: 3,
            vid: 4094,
            mr: true,
            gv: true,
            tv: false,
            sequence: 200,
            tu: true,
            stream_id: 0x0123_4567_89AB_CDEF,
            timestamp: 0xFEDC_BA98,
            gateway_info: 0x7654_3210,
            stream_data_length: 12,
            tag: Tag::Cip,
            channel: 63,
            sy: 5,
            cip,
            blocks: 1,
            payload: &[9, 8, 7, 6],
        };
        assert_eq!(parse_frame(&frame), Ok(read));
        assert_eq!(parse_frame(&frame).unwrap().payload.as_ptr(), frame[50..].as_ptr());
        assert!(parse_frame(&with(frame.clone(), 44, 0x87)).unwrap().cip.sph);
        // With tag 0 the same bytes have no CIP header.
        let camera = with(frame, 40, 0x3F);
        let (payload, cip) = (&camera[42..54], Cip::default());
        let read = Frame { tag: Tag::NoCip, cip, blocks: 0, payload, ..read };
        assert_eq!(parse_frame(&camera), Ok(read));
        assert_eq!(parse_frame(&camera).unwrap().payload.as_ptr(), camera[42..].as_ptr());
    }

    #[test]
    fn payloads_of_tag_0() {
        for length in [0, 1, 2, 3, 4, 7, 8, 9, 1020, 1023, 1024, 1025, 1032, 1475, 1476] {
            // Bytes that would be a QPC, an SPH and a broken block.
            let data = vec![0xFF; length];
            for padding in [0, 1, 18].into_iter().filter(|padding| length + padding <= 1476) {
                let frame = [tagged_0(1, &data), vec![0xEE; padding]].concat();
                let read = parse_frame(&frame).unwrap();
                assert_eq!(usize::from(read.stream_data_length), length);
                assert_eq!((read.tag, read.cip), (Tag::NoCip, Cip::default()));
                assert_eq!((read.blocks, read.payload), (0, &data[..]));
            }
        }
        assert_eq!(tagged_0(1, &[]).len(), 42);
        assert_eq!(tagged_0(1, &[0; 1476]).len(), 1518);
    }

    #[test]
    fn each_check_of_tag_0() {
        let frame = || tagged_0(1, &[0xFF; 11]);
        assert_eq!(refusal(&frame()[..41]), 1);
        assert_eq!(refusal(&tagged_0(1, &[0; 1477])), 2);
        assert_eq!(refusal(&with(frame(), 13, 1)), 3);
        assert_eq!(refusal(&with(frame(), 19, 0x01)), 9);
        assert_eq!(refusal(&with(frame(), 6, 0x01)), 10);
        assert_eq!(refusal(&of_length(frame(), 12)), 11);
        assert_eq!(refusal(&of_length(tagged_0(1, &[]), 1)), 11);
        for length in 0..=11 {
            assert_eq!(refusal(&of_length(frame(), length)), 0);
            assert_eq!(refusal(&with(of_length(frame(), length), 40, 0x80)), 12);
        }
    }
}
