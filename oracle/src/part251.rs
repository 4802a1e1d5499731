//! The functions of `banks/part251.rs`.

use dali2rust_domain::dali::banks::part251::{
    cct, cri, lamp_current_ma, light_distribution_type, light_output_lm, mains_voltage_v, power_w, text_bytes, week,
    year, CctReading, LightDistributionType, LuminaireFormat, TextRegion, BANK1_BASE_LAST_OFFSET,
    BANK1_FORMAT_GATE_LAST_OFFSET, BANK_LUMINAIRE_INFO, CCT_OFFSET, CONTENT_FORMAT_ID_OFFSET, CRI_OFFSET,
    CUSTOMER_STOCKING_NUMBER, FREE_USE, LAMP_CURRENT_OFFSET, LIGHT_DISTRIBUTION, LIGHT_DISTRIBUTION_TYPE_OFFSET,
    LUMINAIRE_COLOUR, LUMINAIRE_IDENTIFICATION, NOMINAL_INPUT_POWER_OFFSET, NOMINAL_LIGHT_OUTPUT_OFFSET,
    NOMINAL_MAX_AC_VOLTAGE_OFFSET, NOMINAL_MIN_AC_VOLTAGE_OFFSET, OEM_NAME, POWER_AT_MINIMUM_OFFSET, WEEK_OFFSET,
    YEAR_OFFSET,
};

use crate::function::{Function, Row, Source};
use crate::line::{Args, Line, Output, Put, Take};
use crate::memory_bank_parser::{bank_text_cases, random_bank_text, BankTextCase};

pub const FUNCTIONS: &[&dyn Function] = &[
    &Row::new(0x20, "LuminaireFormat::from_content_format_id", LuminaireFormat::from_content_format_id, ids),
    &Row::new(0x21, "LuminaireFormat::content_format_id", LuminaireFormat::content_format_id, formats),
    &Row::new(0x22, "LuminaireFormat::min_last_offset", LuminaireFormat::min_last_offset, formats),
    &Row::new(0x23, "LuminaireFormat::has_light_distribution", LuminaireFormat::has_light_distribution, formats),
    &Row::new(0x24, "LuminaireFormat::has_extended_block", LuminaireFormat::has_extended_block, formats),
    &Row::new(0x25, "the constants of part251.rs", constants, |_| vec![()]),
    &Row::new(0x26, "year", year, |source| bytes(source, &[0, 1, 98, 99, 100, 254, 255])),
    &Row::new(0x27, "week", week, |source| bytes(source, &[0, 1, 2, 52, 53, 54, 254, 255])),
    &Row::new(0x28, "power_w", power_w, |source| words(source, &[0, 1, 0x00FF, 0xFF00, 0xFFFE, 0xFFFF])),
    &Row::new(0x29, "mains_voltage_v", mains_voltage_v, |source| {
        words(source, &[0, 89, 90, 91, 255, 256, 479, 480, 481, 0x5A5A, 0xFFFF])
    }),
    &Row::new(0x2A, "light_output_lm", light_output_lm, |_| LIGHT_OUTPUTS.to_vec())
        .domain(|| Box::new(0..1 << 24))
        .random(random_light_output),
    &Row::new(0x2B, "cri", cri, |source| bytes(source, &[0, 1, 99, 100, 101, 254, 255])),
    &Row::new(0x2C, "cct", cct, |source| words(source, &[0, 1, 16_999, 17_000, 17_001, 65_533, 65_534, 65_535])),
    &Row::new(
        0x2D,
        "light_distribution_type",
        |(raw, format)| light_distribution_type(raw, format),
        distribution_type_cases,
    ),
    &Row::new(0x2E, "lamp_current_ma", lamp_current_ma, |source| {
        words(source, &[0, 1, 0x00FF, 0xFF00, 0xFFFE, 0xFFFF])
    }),
    &Row::new(0x2F, "text_bytes", text_before_00, bank_text_cases).random(random_bank_text),
];

fn text_before_00((region, bank): BankTextCase) -> Option<Output> {
    text_bytes(&bank, region).map(|text| Output(text.to_vec()))
}

/// The constants in the order of `part251.rs`. Its map is compared entry by entry in `layout`.
fn constants(_: ()) -> ([u8; 14], [TextRegion; 6], u8) {
    let numbers = [
        BANK_LUMINAIRE_INFO,
        CONTENT_FORMAT_ID_OFFSET,
        BANK1_BASE_LAST_OFFSET,
        BANK1_FORMAT_GATE_LAST_OFFSET,
        YEAR_OFFSET,
        WEEK_OFFSET,
        NOMINAL_INPUT_POWER_OFFSET,
        POWER_AT_MINIMUM_OFFSET,
        NOMINAL_MIN_AC_VOLTAGE_OFFSET,
        NOMINAL_MAX_AC_VOLTAGE_OFFSET,
        NOMINAL_LIGHT_OUTPUT_OFFSET,
        CRI_OFFSET,
        CCT_OFFSET,
        LIGHT_DISTRIBUTION_TYPE_OFFSET,
    ];
    (numbers, REGIONS, LAMP_CURRENT_OFFSET)
}

pub const REGIONS: [TextRegion; 6] =
    [LUMINAIRE_COLOUR, LUMINAIRE_IDENTIFICATION, LIGHT_DISTRIBUTION, OEM_NAME, CUSTOMER_STOCKING_NUMBER, FREE_USE];

pub const FORMATS: [LuminaireFormat; 3] = [LuminaireFormat::V3, LuminaireFormat::V4, LuminaireFormat::V5];

impl Put for LuminaireFormat {
    fn put(&self, line: &mut Line) {
        line.put(&(*self as u8));
    }
}

impl Take for LuminaireFormat {
    fn take(args: &mut Args) -> Option<Self> {
        args.one_of(&FORMATS)
    }
}

impl Put for TextRegion {
    fn put(&self, line: &mut Line) {
        line.put(&(self.offset, self.len));
    }
}

impl Take for TextRegion {
    fn take(args: &mut Args) -> Option<Self> {
        let (offset, len) = args.take()?;
        Some(Self { offset, len })
    }
}

impl Put for CctReading {
    fn put(&self, line: &mut Line) {
        match self {
            Self::Kelvin(kelvin) => line.put(&(0u8, *kelvin)),
            Self::Part209Implemented => line.put(&1u8),
            Self::Unknown => line.put(&2u8),
        }
    }
}

impl Put for LightDistributionType {
    fn put(&self, line: &mut Line) {
        match self {
            Self::NotSpecified => line.put(&0u8),
            Self::Type(raw) => line.put(&(1u8, *raw)),
            Self::EmergencyLuminaire => line.put(&2u8),
            Self::Other => line.put(&3u8),
            Self::Reserved(raw) => line.put(&(4u8, *raw)),
            Self::Unknown => line.put(&5u8),
        }
    }
}

fn formats(_: &mut Source) -> Vec<LuminaireFormat> {
    FORMATS.to_vec()
}

/// Every id; or the known ones, their neighbours, and others with the same byte as a known one.
fn ids(source: &mut Source) -> Vec<u16> {
    let every = (0..=u16::MAX).collect();
    let telling = (0..=8).chain([0x0103, 0x0304, 0x0500, 0x8005, 0xFF03, 0xFFFE, 0xFFFF]);
    source.scale.pick(every, telling.collect())
}

/// Every byte, or those around a rule's edges.
pub fn bytes(source: &Source, edges: &[u8]) -> Vec<u8> {
    let every = (0..=u8::MAX).collect();
    source.scale.pick(every, edges.to_vec())
}

/// Every 16-bit number, or those around a rule's edges.
fn words(source: &Source, edges: &[u16]) -> Vec<u16> {
    let every = (0..=u16::MAX).collect();
    source.scale.pick(every, edges.to_vec())
}

/// The largest number of three bytes, which is no reading.
const LIGHT_OUTPUT_MASK: u32 = 0x00FF_FFFF;

const LIGHT_OUTPUTS: [u32; 7] =
    [0, 1, LIGHT_OUTPUT_MASK - 1, LIGHT_OUTPUT_MASK, LIGHT_OUTPUT_MASK + 1, 0x01FF_FFFF, u32::MAX];

/// Any number, or one whose low bytes are the mask.
fn random_light_output(source: &mut Source) -> u32 {
    let low = source.rng.one_of(&[0, LIGHT_OUTPUT_MASK]);
    source.rng.number() as u32 | low
}

fn distribution_type_cases(source: &mut Source) -> Vec<(u8, LuminaireFormat)> {
    let raws = bytes(source, &[0, 1, 5, 6, 7, 252, 253, 254, 255]);
    let in_formats = |raw| FORMATS.map(|format| (raw, format));
    raws.into_iter().flat_map(in_formats).collect()
}
