//! A stream's record: what is kept of its last frame, and its counts.

use crate::cip::Format;
use crate::frame::{Frame, Tag};

/// Counts since admission; each stays at its greatest value once there.
#[derive(Clone, Copy, Debug, Default, PartialEq, Eq)]
pub struct Counts {
    pub frames: u32,
    pub sequence_breaks: u32,
    pub block_breaks: u32,
    pub format_changes: u32,
    pub mr_changes: u32,
}

/// One place of the stream table.
#[derive(Clone, Copy, Debug, Default, PartialEq, Eq)]
pub struct StreamRecord {
    pub id: u64,
    pub in_use: bool,
    /// The transit limit in nanoseconds, given on admission (request #107).
    pub limit: u32,
    /// Whether a frame was accepted since admission.
    pub seen: bool,
    pub sequence: u8,
    /// The block count expected next, as the last tag 1 frame left it; absent before the
    /// first (request #108).
    pub next_block: Option<u8>,
    pub mr: bool,
    /// The last frame's tag.
    pub tag: Tag,
    /// The format of the last tag 1 frame.
    pub format: Format,
    pub counts: Counts,
}

/// What an accepted frame shows about its stream.
#[derive(Clone, Copy, Debug, Default, PartialEq, Eq)]
pub struct Flags {
    pub sequence: bool,
    pub block: bool,
    pub format: bool,
    pub mr: bool,
}

/// Counts one more where `raised`, up to the greatest count.
fn count(counter: &mut u32, raised: bool) {
    *counter = counter.saturating_add(u32::from(raised));
}

impl StreamRecord {
    /// A stream newly admitted with a transit limit, nothing seen.
    pub fn admitted(id: u64, limit: u32) -> StreamRecord {
        StreamRecord { id, in_use: true, limit, ..StreamRecord::default() }
    }

    /// The flags that `frame` raises; none on the first frame.
    fn flags(&self, frame: &Frame) -> Flags {
        if !self.seen {
            return Flags::default();
        }
        Flags {
            sequence: frame.sequence != self.sequence.wrapping_add(1),
            block: self.breaks_block_count(frame),
            format: self.changes_format(frame),
            mr: frame.mr != self.mr,
        }
    }

    /// Whether `frame` has another block count than the one expected.
    fn breaks_block_count(&self, frame: &Frame) -> bool {
        match frame.tag {
            Tag::NoCip => false,
            Tag::Cip => self.next_block.is_some_and(|next_block| frame.cip.dbc != next_block),
        }
    }

    /// Whether `frame` has another tag or another format than the last.
    fn changes_format(&self, frame: &Frame) -> bool {
        match (self.tag, frame.tag) {
            (Tag::NoCip, Tag::NoCip) => false,
            (Tag::Cip, Tag::Cip) => frame.cip.format() != self.format,
            (Tag::NoCip, Tag::Cip) | (Tag::Cip, Tag::NoCip) => true,
        }
    }

    /// Judges an accepted frame of this stream and brings the record up to date.
    pub fn step(&mut self, frame: &Frame) -> Flags {
        let flags = self.flags(frame);
        self.seen = true;
        self.sequence = frame.sequence;
        self.mr = frame.mr;
        self.tag = frame.tag;
        if frame.tag == Tag::Cip {
            self.next_block = Some(frame.cip.dbc.wrapping_add(frame.blocks as u8));
            self.format = frame.cip.format();
        }
        count(&mut self.counts.frames, true);
        count(&mut self.counts.sequence_breaks, flags.sequence);
        count(&mut self.counts.block_breaks, flags.block);
        count(&mut self.counts.format_changes, flags.format);
        count(&mut self.counts.mr_changes, flags.mr);
        flags
    }
}

#[cfg(test)]
mod tests {
    use super::*;
    use crate::frame::parse_frame;
    use crate::presentation::LARGEST_LIMIT;
    use crate::samples::{sound, tagged_0, with};

    /// Steps a record; the letters of the flags raised.
    fn raised(record: &mut StreamRecord, frame: &[u8]) -> String {
        let flags = record.step(&parse_frame(frame).unwrap());
        [(flags.sequence, 's'), (flags.block, 'b'), (flags.format, 'f'), (flags.mr, 'm')]
            .iter()
            .filter_map(|&(raised, letter)| raised.then_some(letter))
            .collect()
    }

    /// Stream 1, newly admitted without a transit limit.
    fn newly_admitted() -> StreamRecord {
        StreamRecord::admitted(1, LARGEST_LIMIT)
    }

    #[test]
    fn admitted_with_a_limit() {
        for limit in [0, 1, 2_000_000, LARGEST_LIMIT] {
            let mut record = StreamRecord::admitted(7, limit);
            let zero = StreamRecord::default();
            assert_eq!(record, StreamRecord { id: 7, in_use: true, limit, ..zero });
            // Frames don't change the limit.
            for sequence in [1, 2, 7] {
                raised(&mut record, &with(sound(7, &[0; 8]), 20, sequence));
                assert_eq!(record.limit, limit);
            }
        }
    }

    #[test]
    fn m6_m7_next_block_count() {
        let mut record = newly_admitted();
        raised(&mut record, &with(sound(1, &[0; 32]), 45, 250));
        assert_eq!(record.next_block, Some(2));
        let mut record = newly_admitted();
        let frame = with(sound(1, &[0; 4 * 367]), 45, 10);
        assert_eq!(parse_frame(&frame).unwrap().blocks, 367);
        raised(&mut record, &frame);
        assert_eq!(record.next_block, Some(121));
    }

    #[test]
    fn m8_sequence_wraps() {
        let mut record = newly_admitted();
        for sequence in [255, 0, 1] {
            assert_eq!(raised(&mut record, &with(sound(1, &[]), 20, sequence)), "");
        }
        assert_eq!(raised(&mut record, &with(sound(1, &[]), 20, 1)), "s");
        assert_eq!(raised(&mut record, &with(sound(1, &[]), 20, 3)), "s");
    }

    #[test]
    fn flags_and_counts() {
        let mut record = newly_admitted();
        let frame = |sequence, dbc| with(with(sound(1, &[0; 8]), 20, sequence), 45, dbc);
        assert_eq!(raised(&mut record, &with(frame(7, 9), 19, 0x89)), "");
        assert_eq!(raised(&mut record, &with(frame(8, 11), 19, 0x89)), "");
        assert_eq!(raised(&mut record, &frame(9, 13)), "m");
        assert_eq!(raised(&mut record, &frame(11, 15)), "s");
        assert_eq!(raised(&mut record, &frame(12, 16)), "b");
        assert_eq!(raised(&mut record, &with(frame(13, 18), 43, 2)), "f");
        assert_eq!(raised(&mut record, &with(frame(14, 19), 43, 2)), "");
        assert_eq!(raised(&mut record, &with(with(frame(15, 20), 43, 2), 44, 0x40)), "f");
        assert_eq!(raised(&mut record, &with(with(frame(16, 21), 43, 2), 44, 0x04)), "f");
        // The reserved bits, SID and FDF are no part of the format.
        let sid = with(with(with(frame(17, 22), 43, 2), 44, 0x07), 42, 0x3F);
        assert_eq!(raised(&mut record, &sid), "");
        let fmt = with(with(with(frame(18, 23), 43, 2), 44, 0x04), 46, 0xA0);
        assert_eq!(raised(&mut record, &fmt), "f");
        let fdf = with(with(with(fmt, 20, 19), 45, 24), 47, 0xFF);
        assert_eq!(raised(&mut record, &fdf), "");
        assert_eq!(
            record,
            StreamRecord {
                id: 1,
                in_use: true,
                limit: LARGEST_LIMIT,
                seen: true,
                sequence: 19,
                next_block: Some(25),
                mr: false,
                tag: Tag::Cip,
                format: Format { fmt: 32, dbs: 2, fraction: 0, sph: true },
                counts: Counts {
                    frames: 12,
                    sequence_breaks: 1,
                    block_breaks: 1,
                    format_changes: 4,
                    mr_changes: 1,
                },
            }
        );
    }

    #[test]
    fn counts_stay_at_the_greatest() {
        let mut record = newly_admitted();
        raised(&mut record, &sound(1, &[]));
        let full = u32::MAX;
        record.counts = Counts {
            frames: full - 1,
            sequence_breaks: full,
            block_breaks: full,
            format_changes: full,
            mr_changes: full,
        };
        let other = with(with(with(sound(1, &[]), 45, 3), 46, 0x81), 19, 0x89);
        assert_eq!(raised(&mut record, &other), "sbfm");
        assert_eq!(raised(&mut record, &sound(1, &[])), "sbfm");
        let counts = record.counts;
        assert_eq!((counts.frames, counts.sequence_breaks), (full, full));
        assert_eq!(counts.block_breaks, full);
        assert_eq!((counts.format_changes, counts.mr_changes), (full, full));
    }

    #[test]
    fn empty_frames_keep_the_block_count() {
        let mut record = newly_admitted();
        let frame = |sequence, dbc, blocks: usize| {
            with(with(sound(1, &vec![0; 4 * blocks]), 20, sequence), 45, dbc)
        };
        assert_eq!(raised(&mut record, &frame(0, 5, 2)), "");
        assert_eq!(raised(&mut record, &frame(1, 7, 0)), "");
        assert_eq!(raised(&mut record, &frame(2, 9, 0)), "b");
        assert_eq!(raised(&mut record, &frame(3, 9, 0)), "");
        assert_eq!(raised(&mut record, &frame(4, 9, 256)), "");
        assert_eq!(raised(&mut record, &frame(5, 9, 1)), "");
    }

    /// A frame of tag 1 with two blocks, and one of tag 0, whose bytes would be a CIP
    /// header with other fields.
    fn deck(sequence: u8, dbc: u8) -> Vec<u8> {
        with(with(sound(1, &[0; 8]), 20, sequence), 45, dbc)
    }

    fn camera(sequence: u8) -> Vec<u8> {
        with(tagged_0(1, &[0x55; 1476]), 20, sequence)
    }

    #[test]
    fn what_a_tag_0_frame_moves() {
        let mut record = newly_admitted();
        assert_eq!(raised(&mut record, &with(camera(7), 19, 0x89)), "");
        let seen = StreamRecord { seen: true, sequence: 7, mr: true, ..newly_admitted() };
        let counts = Counts { frames: 1, ..Counts::default() };
        assert_eq!(record, StreamRecord { counts, ..seen });
        assert_eq!((record.next_block, record.tag), (None, Tag::NoCip));

        let mut record = newly_admitted();
        raised(&mut record, &deck(7, 9));
        let before = record;
        assert_eq!((before.next_block, before.tag), (Some(11), Tag::Cip));
        assert_eq!(raised(&mut record, &with(camera(9), 19, 0x89)), "sfm");
        let counts = Counts {
            frames: 2,
            sequence_breaks: 1,
            format_changes: 1,
            mr_changes: 1,
            ..before.counts
        };
        let moved = StreamRecord { sequence: 9, mr: true, tag: Tag::NoCip, counts, ..before };
        assert_eq!(record, moved);
    }

    #[test]
    fn block_counts_over_tag_0_frames() {
        let mut record = newly_admitted();
        // None is expected yet, 0 no more than any other.
        assert_eq!(raised(&mut record, &camera(0)), "");
        assert_eq!(raised(&mut record, &camera(1)), "");
        assert_eq!(raised(&mut record, &deck(2, 254)), "f");
        assert_eq!(raised(&mut record, &camera(3)), "f");
        assert_eq!(raised(&mut record, &camera(4)), "");
        assert_eq!(raised(&mut record, &deck(5, 0)), "f");
        assert_eq!(raised(&mut record, &deck(6, 2)), "");
        assert_eq!(raised(&mut record, &camera(7)), "f");
        assert_eq!(raised(&mut record, &deck(8, 5)), "bf");
        assert_eq!(record.counts.block_breaks, 1);
    }

    #[test]
    fn a_change_of_tag_is_a_change_of_format() {
        // The four fields are the same in all tag 1 frames, and then all zero.
        for zero in [|frame| frame, |frame| with(with(frame, 43, 0), 46, 0)] {
            let deck = |sequence| zero(with(sound(1, &[]), 20, sequence));
            let mut record = newly_admitted();
            assert_eq!(raised(&mut record, &camera(0)), "");
            assert_eq!(raised(&mut record, &deck(1)), "f");
            assert_eq!(raised(&mut record, &deck(2)), "");
            assert_eq!(raised(&mut record, &camera(3)), "f");
            assert_eq!(raised(&mut record, &camera(4)), "");
            assert_eq!(raised(&mut record, &deck(5)), "f");
            assert_eq!(record.counts.format_changes, 3);
        }
    }
}
