//! The functions of `memory_bank_parser.rs`. Their cases are made in the files of its folder.

mod fields;
mod luminaire;
mod records;
mod since;
mod texts;

use dali2rust_contracts::msg::FixedText;
use dali2rust_domain::dali::banks::luminaire_write::{LuminaireField, LUMINAIRE_FIELDS};
use dali2rust_domain::dali::banks::part251::TextRegion;
use dali2rust_domain::registry::{BankReading, LuminaireValue};
use dali2rust_registry_runtime::memory_bank_parser::asked::{
    byte, escape_into_bounded, parse_bank0_bus_unit, parse_bank0_identity, parse_bank1_luminaire, parse_bank1_profile,
    parse_scale, text_region, LuminaireMember, Member,
};

use crate::function::{Function, Row};
use crate::line::{Args, Line, Put, Sequence, Take};
use fields::{byte_cases, random_byte, random_reading, random_scale, reading_cases, scale_cases, ByteCase, ScaleCase};
use luminaire::{every_number, luminaire_cases, random_luminaire};
use records::{random_record, random_record_after, record_after_cases, record_cases, RecordCase};
use since::{reading_after, record_after};
use texts::{escape_cases, every_sequence, random_escape, random_text_case, text_cases, EscapeCase, TextCase};

pub use luminaire::random_bank;
pub use texts::{bank_text_cases, random_bank_text, BankTextCase};

pub const FUNCTIONS: &[&dyn Function] = &[
    &Row::new(0x70, "byte", |(start, index, bytes): ByteCase| byte(&bytes, start, index), byte_cases)
        .random(random_byte),
    &Row::new(0x71, "parse_reading", reading_after, reading_cases).random(random_reading),
    &Row::new(0x72, "parse_scale", |(start, offset, bytes): ScaleCase| parse_scale(&bytes, start, offset), scale_cases)
        .random(random_scale),
    &Row::new(0x73, "parse_bank0_identity", |case| members(parse_bank0_identity, case), record_cases::<0>)
        .random(random_record::<0>),
    &Row::new(0x74, "parse_bank1_profile", |case| members(parse_bank1_profile, case), record_cases::<1>)
        .random(random_record::<1>),
    &Row::new(0x75, "parse_bank0_bus_unit", |case| members(parse_bank0_bus_unit, case), record_cases::<0>)
        .random(random_record::<0>),
    &Row::new(0x76, "parse_energy_bank", record_after::<202>, record_after_cases).random(random_record_after),
    &Row::new(0x77, "parse_gear_diagnostics", record_after::<205>, record_after_cases).random(random_record_after),
    &Row::new(0x78, "parse_source_diagnostics", record_after::<206>, record_after_cases).random(random_record_after),
    &Row::new(0x79, "parse_luminaire_maintenance", record_after::<207>, record_after_cases).random(random_record_after),
    &Row::new(0x7A, "text_region", text_of_region, text_cases).random(random_text_case),
    &Row::new(0x7B, "escape_into_bounded", escaped, escape_cases).domain(every_sequence).random(random_escape),
    &Row::new(
        0x7C,
        "parse_bank1_luminaire",
        |(start, bytes): RecordCase| Sequence(luminaire_record(&bytes, start)),
        luminaire_cases,
    )
    .domain(every_number)
    .random(random_luminaire),
];

fn members(parser: fn(&[u8], u16) -> Vec<Member>, (start, bytes): RecordCase) -> Sequence<Member> {
    Sequence(parser(&bytes, start))
}

impl Put for Member {
    fn put(&self, line: &mut Line) {
        match self {
            Self::Byte(byte) => line.put(byte),
            Self::Number(number) => line.put(number),
            Self::Scale(scale) => line.put(scale),
            Self::Reading(reading) => line.put(reading),
            Self::Condition(flag, counter) => line.put(&(*flag, *counter)),
        }
    }
}

/// What the luminaire record has of a field.
#[derive(Debug, Clone, PartialEq, Eq)]
pub enum Shown {
    Id(Option<u16>),
    Value(Option<LuminaireValue>),
    Text(Text),
}

/// The record in the order of the table of fields.
pub fn luminaire_record(bytes: &[u8], start: u16) -> Vec<Shown> {
    let shown = |(field, member): (&LuminaireField, LuminaireMember)| {
        let all = || text_region::<NO_LIMIT>(bytes, start, TextRegion { offset: field.offset, len: field.len });
        match member {
            LuminaireMember::Id(id) => Shown::Id(id),
            LuminaireMember::Value(value) => Shown::Value(value),
            LuminaireMember::Text32(text) => Shown::Text(Text::of(text, all(), Limit::Of32)),
            LuminaireMember::Text64(text) => Shown::Text(Text::of(text, all(), Limit::Of64)),
        }
    };
    LUMINAIRE_FIELDS.iter().zip(parse_bank1_luminaire(bytes, start)).map(shown).collect()
}

impl Put for Shown {
    fn put(&self, line: &mut Line) {
        match self {
            Self::Id(id) => line.put(id),
            Self::Value(value) => line.put(value),
            Self::Text(text) => line.put(text),
        }
    }
}

impl Put for BankReading {
    fn put(&self, line: &mut Line) {
        let flags = (self.not_implemented, self.temporarily_unavailable, self.saturated);
        line.put(&(self.value, flags, self.tmask_since_ms));
    }
}

impl Take for BankReading {
    fn take(args: &mut Args) -> Option<Self> {
        let (value, (not_implemented, temporarily_unavailable, saturated), tmask_since_ms) = args.take()?;
        Some(Self { value, not_implemented, temporarily_unavailable, tmask_since_ms, saturated })
    }
}

impl Put for LuminaireValue {
    fn put(&self, line: &mut Line) {
        line.put(&(self.raw, self.value, self.part209_implemented));
    }
}

impl Take for LuminaireValue {
    fn take(args: &mut Args) -> Option<Self> {
        let (raw, value, part209_implemented) = args.take()?;
        Some(Self { raw, value, part209_implemented })
    }
}

/// How many bytes a text may have.
#[derive(Debug, Clone, Copy, PartialEq, Eq)]
enum Limit {
    Of32,
    Of64,
}

const LIMITS: [Limit; 2] = [Limit::Of32, Limit::Of64];

impl Put for Limit {
    fn put(&self, line: &mut Line) {
        line.put(&(*self as u8));
    }
}

impl Take for Limit {
    fn take(args: &mut Args) -> Option<Self> {
        args.one_of(&LIMITS)
    }
}

/// A limit that no text reaches.
const NO_LIMIT: usize = usize::MAX;

/// The bytes of a `FixedText` if there is one, whether they are all that there are without a limit, and its limit.
#[derive(Debug, Clone, PartialEq, Eq)]
pub struct Text {
    pub bytes: Option<Vec<u8>>,
    whole: bool,
    limit: Limit,
}

impl Text {
    fn of<const N: usize>(text: Option<FixedText<N>>, all: Option<FixedText<NO_LIMIT>>, limit: Limit) -> Self {
        let text = text.as_ref().map(FixedText::as_bytes);
        let whole = text.is_some() && text == all.as_ref().map(FixedText::as_bytes);
        Self { bytes: text.map(<[u8]>::to_vec), whole, limit }
    }

    /// Whether it has these bytes, and says that it is whole.
    pub fn shows_whole(&self, bytes: &[u8]) -> bool {
        self.whole && self.bytes.as_deref() == Some(bytes)
    }
}

/// How many bytes a line has for a text of any length.
const TEXT_BYTES: usize = 64;

impl Put for Text {
    fn put(&self, line: &mut Line) {
        let bytes = self.bytes.as_deref().unwrap_or_default();
        let mut filled_up = [0u8; TEXT_BYTES];
        filled_up[..bytes.len()].copy_from_slice(bytes);
        line.put(&(self.bytes.is_some(), self.whole, self.limit, bytes.len(), filled_up));
    }
}

impl Take for Text {
    fn take(args: &mut Args) -> Option<Self> {
        let (present, whole, limit, length, filled_up): (bool, _, _, usize, [u8; TEXT_BYTES]) = args.take()?;
        let bytes = filled_up.get(..length)?.to_vec();
        Some(Self { bytes: present.then_some(bytes), whole, limit })
    }
}

fn text_of_region((start, region, limit, bytes): TextCase) -> Text {
    let all = text_region::<NO_LIMIT>(&bytes, start, region);
    match limit {
        Limit::Of32 => Text::of(text_region::<32>(&bytes, start, region), all, limit),
        Limit::Of64 => Text::of(text_region::<64>(&bytes, start, region), all, limit),
    }
}

fn escaped((limit, raw): EscapeCase) -> Text {
    let all = Some(escape_into_bounded::<NO_LIMIT>(&raw));
    match limit {
        Limit::Of32 => Text::of(Some(escape_into_bounded::<32>(&raw)), all, limit),
        Limit::Of64 => Text::of(Some(escape_into_bounded::<64>(&raw)), all, limit),
    }
}
