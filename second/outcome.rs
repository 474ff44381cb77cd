//! What the records of a capture come to.

use crate::capture::{parse_record, CaptureRecord};
use crate::refusal::Refusal;
use crate::table::{Reception, StreamTable};

/// What a record that isn't refused comes to.
#[derive(Clone, Copy, Debug, PartialEq, Eq)]
pub enum Outcome<'a> {
    Frame(Reception<'a>),
    Admitted,
}

/// Carries out a whole record, given without its length bytes, on the table. A
/// refused record changes nothing.
pub fn carry_out<'a>(table: &mut StreamTable, record: &'a [u8]) -> Result<Outcome<'a>, Refusal> {
    match parse_record(record)? {
        CaptureRecord::Frame { arrival, frame } => {
            table.receive(frame, arrival).map(Outcome::Frame)
        }
        CaptureRecord::Admit { id, limit } => table.admit(id, limit).map(|()| Outcome::Admitted),
    }
}

#[cfg(test)]
mod tests {
    use super::*;
    use crate::samples::{
        admit_record, frame_record, limited_record, record, remove_record, sound, stamped,
    };
    use crate::stream::StreamRecord;

    #[test]
    fn each_kind_of_record() {
        let table = &mut StreamTable::new();
        let mut come_to = |record: Vec<u8>| {
            carry_out(table, &record[2..]).map(|outcome| match outcome {
                Outcome::Frame(Reception { frame, presentation, .. }) => {
                    (frame.stream_id, presentation.time)
                }
                Outcome::Admitted => (1, 0),
            })
        };
        let frame = frame_record(1000, &stamped(sound(7, &[]), 3000));
        assert_eq!(come_to(frame.clone()), Err(Refusal::StreamNotAdmitted));
        assert_eq!(come_to(admit_record(7)), Ok((1, 0)));
        assert_eq!(come_to(admit_record(7)), Err(Refusal::AlreadyAdmitted));
        assert_eq!(come_to(frame), Ok((7, 3000)));
        assert_eq!(come_to(frame_record(0, &[])), Err(Refusal::FrameTooShort));
        assert_eq!(come_to(record(4, &[])), Err(Refusal::RecordKind));
        assert_eq!(come_to(limited_record(7, 1 << 31)), Err(Refusal::AlreadyAdmitted));
        assert_eq!(come_to(limited_record(8, 1 << 31)), Err(Refusal::LimitTooLarge));
        assert_eq!(come_to(limited_record(8, 0)), Ok((1, 0)));
        assert_eq!(come_to(limited_record(8, 1 << 31)), Err(Refusal::AlreadyAdmitted));
        assert_eq!(come_to(admit_record(8)), Err(Refusal::AlreadyAdmitted));
        assert_eq!(come_to(record(5, &[0; 8])), Err(Refusal::RecordLength));
    }

    #[test]
    fn removals_change_nothing() {
        let table = &mut StreamTable::new();
        let frame = frame_record(1000, &stamped(sound(7, &[]), 3000));
        let retired = Err(Refusal::RemovalRetired);
        assert_eq!(carry_out(table, &remove_record(7)[2..]), retired);
        carry_out(table, &admit_record(7)[2..]).unwrap();
        carry_out(table, &frame[2..]).unwrap();
        let before: Vec<StreamRecord> = table.admitted().copied().collect();
        for removal in [remove_record(7), remove_record(8), remove_record(7)] {
            assert_eq!(carry_out(table, &removal[2..]), retired);
            assert!(table.admitted().eq(&before));
        }
        // Of another length, with an id and without one.
        for body in [&[][..], &7_u64.to_be_bytes()[..7], &[0, 0, 0, 0, 0, 0, 0, 7, 0]] {
            assert_eq!(carry_out(table, &record(3, body)[2..]), Err(Refusal::RecordLength));
            assert!(table.admitted().eq(&before));
        }
        assert_eq!(carry_out(table, &admit_record(7)[2..]), Err(Refusal::AlreadyAdmitted));
        assert!(matches!(carry_out(table, &frame[2..]), Ok(Outcome::Frame(_))));
    }
}
