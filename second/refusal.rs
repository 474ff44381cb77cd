//! Refusals and their numbers.

/// Why a frame, a call on the table, a capture record or a cycle time is refused.
/// The value of each case is the number a program prints.
#[allow(dead_code)] // no program prints every number
#[derive(Clone, Copy, Debug, PartialEq, Eq)]
#[repr(u8)]
pub enum Refusal {
    FrameTooShort = 1,
    FrameTooLong = 2,
    Tpid = 3,
    Cfi = 4,
    Ethertype = 5,
    Control = 6,
    Subtype = 7,
    Version = 8,
    StreamIdNotValid = 9,
    Addresses = 10,
    LengthOverFrame = 11,
    Tag = 12,
    LengthUnderCip = 13,
    BrokenBlock = 14,
    StreamNotAdmitted = 15,
    PaddingCount = 16,
    AlreadyAdmitted = 21,
    NoUnusedRecord = 22,
    LimitTooLarge = 24,
    CaptureEnds = 41,
    RecordLength = 42,
    RecordKind = 43,
    RemovalRetired = 44,
    Cycle = 61,
    CycleOffset = 62,
    CycleSeconds = 63,
}

impl Refusal {
    /// The number a program prints.
    pub fn number(self) -> u64 {
        self as u64
    }
}
