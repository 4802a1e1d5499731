//! Why a call is refused.

use dali2rust_domain::dali::banks::luminaire_write::Bank1WriteRefusal;

use crate::line::{Line, Put};

/// The Rust's own refusals, and those that 01, and F-1 of 02, add for the plan and the read-out.
#[derive(Clone, Copy)]
pub enum Refusal {
    NotWritable(Bank1WriteRefusal),
    NumberNotAccepted,
    FieldNotText,
    UnknownMaskBits,
    UnknownField,
    BudgetZero,
    ReadOutInvalid,
    SliceTooShort,
    WrongChunkLength,
    TextTooLong,
    /// The index of the first byte outside 20 to 7E hex. The text fits its field, so it is below 255.
    ByteNotPrintable(u8),
}

impl Refusal {
    /// The number in 01's list, "Who can cause a refusal". F-1 narrows 8 to a field that is no text, and adds 15 and 16.
    pub fn number(self) -> u8 {
        match self {
            Self::NotWritable(Bank1WriteRefusal::FieldReadOnly) => 1,
            Self::NotWritable(Bank1WriteRefusal::NotImplemented) => 2,
            Self::NotWritable(Bank1WriteRefusal::NotRead) => 3,
            Self::NotWritable(Bank1WriteRefusal::NotPart251) => 4,
            Self::NotWritable(Bank1WriteRefusal::FieldNotInFormat) => 5,
            Self::NotWritable(Bank1WriteRefusal::TooShort) => 6,
            Self::NumberNotAccepted => 7,
            Self::FieldNotText => 8,
            Self::UnknownMaskBits => 9,
            Self::UnknownField => 10,
            Self::BudgetZero => 11,
            Self::ReadOutInvalid => 12,
            Self::SliceTooShort => 13,
            Self::WrongChunkLength => 14,
            Self::TextTooLong => 15,
            Self::ByteNotPrintable(_) => 16,
        }
    }
}

/// The number, and behind it the index, if there is one.
impl Put for Refusal {
    fn put(&self, line: &mut Line) {
        line.put(&self.number());
        if let Self::ByteNotPrintable(index) = self {
            line.put(index);
        }
    }
}
