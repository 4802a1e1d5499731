//! The functions of `banks/luminaire_write.rs`, and the plan over them. The writes, the plan, the rules and the texts are
//! in the files of its folder.

mod plan;
mod rules;
mod texts;
mod wanted;
mod writes;

use dali2rust_contracts::msg::{LuminaireNumbers, LuminaireTextField};
use dali2rust_domain::dali::banks::luminaire_write::{
    check_writable, Bank1Layout, FieldKind, LuminaireField, NumberRule, BANK1_HEADER_LEN, BANK_UNLOCKED,
    LUMINAIRE_FIELDS, TEXT_TERMINATOR,
};
use dali2rust_domain::dali::banks::part251::LuminaireFormat;

use crate::function::{Cases, Function, Row, Scale, Source};
use crate::line::{Args, Line, Put, Take};
use crate::part251::FORMATS;
use crate::refusal::Refusal;
use crate::rng::Rng;
use plan::{ask_count, plan_cases, planned, random_plan};
use texts::{accepts_text, random_text, text_cases, TextCase};
use wanted::mask_cases;
use writes::{
    all_writes, every_mask, held_cases, random_held, random_write, random_writes, stages, write_cases, write_of,
    writes_cases, HeldCase, WriteCase,
};

pub use plan::{longest, planned_stores, random_layout_and_wanted, wanting, with_bit, STORE_COUNT};
pub use rules::SHOWS_BACK;
pub use texts::{places, printable, TELLING_BYTES, TEXT_REFUSAL};
pub use wanted::{accepted_number, number_fields, random_wanted, telling_u32s, text_fields, Numbers, Wanted};

pub const FUNCTIONS: &[&dyn Function] = &[
    &Row::new(0x30, "LUMINAIRE_FIELDS, one entry", |index: usize| LUMINAIRE_FIELDS.get(index).copied(), indices),
    &Row::new(0x31, "LuminaireField::of_text", index_of_text, |_| TEXTS.to_vec()),
    &Row::new(
        0x32,
        "LuminaireField::last_offset",
        |field: LuminaireField| u16::from(field.last_offset()),
        |_| LUMINAIRE_FIELDS.to_vec(),
    )
    .random(|source| random_field(&mut source.rng)),
    &Row::new(
        0x33,
        "LuminaireField::in_format",
        |(field, format): (LuminaireField, LuminaireFormat)| field.in_format(format),
        |_| in_formats().collect(),
    )
    .random(|source| (random_field(&mut source.rng), source.rng.one_of(&FORMATS))),
    &Row::new(
        0x34,
        "LuminaireField::ends_by",
        |(field, last): (LuminaireField, u8)| field.ends_by(last),
        last_offset_cases,
    )
    .random(|source| (random_field(&mut source.rng), source.rng.number() as u8)),
    &Row::new(
        0x35,
        "LuminaireField::accepts_number",
        |(field, value, format): NumberCase| field.accepts_number(value, format),
        number_cases,
    )
    .domain(every_number)
    .random(random_number),
    &Row::new(
        0x36,
        "LuminaireField::accepts_text",
        |(field, bytes): TextCase| accepts_text(&field, &bytes),
        text_cases,
    )
    .random(random_text),
    &Row::new(0x37, "Bank1Layout::from_header", |header: Vec<u8>| Bank1Layout::from_header(&header), header_cases)
        .random(random_header),
    &Row::new(
        0x38,
        "check_writable",
        |(layout, field): WritableCase| check_writable(&layout, &field).map_err(Refusal::NotWritable),
        writable_cases,
    )
    .random(|source| (random_layout(&mut source.rng), random_field(&mut source.rng))),
    &Row::new(0x39, "planned_writes", all_writes, writes_cases).domain(every_mask).random(random_writes),
    &Row::new(
        0x3A,
        "FieldWrite::end",
        |(index, bytes): WriteCase| write_of(index, bytes).map(|write| write.end()),
        write_cases,
    )
    .random(random_write),
    &Row::new(
        0x3B,
        "FieldWrite::held_by",
        |(index, bytes, bank): HeldCase| write_of(index, bytes).is_some_and(|write| write.held_by(&bank)),
        held_cases,
    )
    .random(random_held),
    &Row::new(0x3C, "FieldWrite::stages", stages, write_cases).random(random_write),
    &Row::new(0x3D, "the count of wanted numbers", |numbers: Numbers| numbers.mask.count_ones(), mask_cases),
    &Row::new(0x3E, "a plan", planned, plan_cases).random(random_plan).rounds(2).also(ask_count),
    &Row::new(
        0x3F,
        "the constants of luminaire_write.rs",
        |_: ()| (BANK_UNLOCKED, BANK1_HEADER_LEN, TEXT_TERMINATOR),
        |_| vec![()],
    ),
];

const TEXTS: [LuminaireTextField; 6] = [
    LuminaireTextField::LuminaireColour,
    LuminaireTextField::LuminaireIdentification,
    LuminaireTextField::LightDistribution,
    LuminaireTextField::OemName,
    LuminaireTextField::CustomerStockingNumber,
    LuminaireTextField::FreeUse,
];

impl Put for LuminaireTextField {
    fn put(&self, line: &mut Line) {
        line.put(&(*self as u8));
    }
}

impl Take for LuminaireTextField {
    fn take(args: &mut Args) -> Option<Self> {
        args.one_of(&TEXTS)
    }
}

const RULES: [NumberRule; 9] = [
    NumberRule::Year,
    NumberRule::Week,
    NumberRule::Power,
    NumberRule::MainsVoltage,
    NumberRule::LightOutput,
    NumberRule::Cri,
    NumberRule::Cct,
    NumberRule::LightDistributionType,
    NumberRule::LampCurrent,
];

impl Put for NumberRule {
    fn put(&self, line: &mut Line) {
        line.put(&(*self as u8));
    }
}

impl Take for NumberRule {
    fn take(args: &mut Args) -> Option<Self> {
        args.one_of(&RULES)
    }
}

/// The patch bits in the order of `number_values`. Their values are the stand-in's own, so a line has the place's bit.
const PATCHES: [u16; 11] = [
    LuminaireNumbers::PATCH_YEAR,
    LuminaireNumbers::PATCH_WEEK,
    LuminaireNumbers::PATCH_NOMINAL_INPUT_POWER_W,
    LuminaireNumbers::PATCH_POWER_AT_MINIMUM_W,
    LuminaireNumbers::PATCH_NOMINAL_MIN_AC_VOLTAGE_V,
    LuminaireNumbers::PATCH_NOMINAL_MAX_AC_VOLTAGE_V,
    LuminaireNumbers::PATCH_NOMINAL_LIGHT_OUTPUT_LM,
    LuminaireNumbers::PATCH_CRI,
    LuminaireNumbers::PATCH_CCT_KELVIN,
    LuminaireNumbers::PATCH_LIGHT_DISTRIBUTION_TYPE,
    LuminaireNumbers::PATCH_LAMP_CURRENT_MA,
];

/// The bit in a line, or 0 if there is none.
fn bit_of(patch: u16) -> u16 {
    let place = PATCHES.iter().position(|known| *known == patch);
    place.map_or(0, |place| 1 << place)
}

fn patch_of(bit: u16) -> Option<u16> {
    PATCHES.into_iter().find(|patch| bit_of(*patch) == bit)
}

impl Put for FieldKind {
    fn put(&self, line: &mut Line) {
        match *self {
            Self::LayoutId => line.put(&0u8),
            Self::Number { patch, rule } => line.put(&(1u8, bit_of(patch), rule)),
            Self::Text(text) => line.put(&(2u8, text)),
        }
    }
}

impl Take for FieldKind {
    fn take(args: &mut Args) -> Option<Self> {
        match args.take::<u8>()? {
            0 => Some(Self::LayoutId),
            1 => Some(Self::Number { patch: patch_of(args.take()?)?, rule: args.take()? }),
            2 => args.take().map(Self::Text),
            _ => None,
        }
    }
}

impl Put for LuminaireField {
    fn put(&self, line: &mut Line) {
        line.put(&(self.offset, self.len, self.since, self.kind));
    }
}

/// A line leaves the name out, and no compared function reads it.
impl Take for LuminaireField {
    fn take(args: &mut Args) -> Option<Self> {
        let (offset, len, since, kind) = args.take()?;
        Some(Self { name: "", offset, len, since, kind })
    }
}

impl Put for Bank1Layout {
    fn put(&self, line: &mut Line) {
        line.put(&(self.implemented, self.content_format_id, self.last_offset));
    }
}

impl Take for Bank1Layout {
    fn take(args: &mut Args) -> Option<Self> {
        let (implemented, content_format_id, last_offset) = args.take()?;
        Some(Self { implemented, content_format_id, last_offset })
    }
}

fn indices(_: &mut Source) -> Vec<usize> {
    let far = [1 << 8, 1 << 16, 1 << 32, 1 << 63, usize::MAX];
    (0..=20).chain(far).collect()
}

fn index_of_text(text: LuminaireTextField) -> Option<usize> {
    LuminaireField::of_text(text).map(index_of)
}

/// The place in the list of a field that is there.
pub fn index_of(field: &LuminaireField) -> usize {
    LUMINAIRE_FIELDS.iter().take_while(|listed| *listed != field).count()
}

/// Any field that ends within a bank, also one that is not listed.
fn random_field(rng: &mut Rng) -> LuminaireField {
    let offset = rng.number() as u8;
    let room = (256 - usize::from(offset)).min(255);
    let len = 1 + rng.below(room) as u8;
    LuminaireField { name: "", offset, len, since: rng.one_of(&FORMATS), kind: random_kind(rng) }
}

fn random_kind(rng: &mut Rng) -> FieldKind {
    match rng.below(8) {
        0 => FieldKind::LayoutId,
        1..=4 => FieldKind::Number { patch: rng.one_of(&PATCHES), rule: rng.one_of(&RULES) },
        _ => FieldKind::Text(rng.one_of(&TEXTS)),
    }
}

/// Each field in each format.
fn in_formats() -> impl Iterator<Item = (LuminaireField, LuminaireFormat)> {
    LUMINAIRE_FIELDS.into_iter().flat_map(|field| FORMATS.map(|format| (field, format)))
}

fn last_offset_cases(source: &mut Source) -> Vec<(LuminaireField, u8)> {
    let mut cases = Vec::new();
    for field in LUMINAIRE_FIELDS {
        let last = field.last_offset();
        let telling = vec![0, field.offset, last - 1, last, last + 1, u8::MAX];
        let lasts = source.scale.pick((0..=u8::MAX).collect(), telling);
        cases.extend(lasts.into_iter().map(|last| (field, last)));
    }
    cases
}

type NumberCase = (LuminaireField, u64, LuminaireFormat);

fn number_cases(source: &mut Source) -> Vec<NumberCase> {
    let mut cases = Vec::new();
    for (field, format) in source.scale.pick(in_formats().collect(), in_telling_formats()) {
        let mut values = telling_numbers(field);
        if let Scale::Full = source.scale {
            values.extend(numbers_near_the_ends(field));
        }
        cases.extend(values.into_iter().map(|value| (field, value, format)));
    }
    cases
}

/// The light distribution type in each format, since its rule alone asks for it, and the others in their first.
fn in_telling_formats() -> Vec<(LuminaireField, LuminaireFormat)> {
    let asks = |kind| matches!(kind, FieldKind::Number { rule: NumberRule::LightDistributionType, .. });
    in_formats().filter(|(field, format)| asks(field.kind) || *format == field.since).collect()
}

/// The edges of a number's rule and bytes. No other field accepts a number, so one is enough there.
fn telling_numbers(field: LuminaireField) -> Vec<u64> {
    let FieldKind::Number { rule, .. } = field.kind else {
        return vec![1];
    };
    let end = end_of_bytes(field);
    let mut values = vec![0, 1, end - 2, end - 1, end, end + 1, 1 << 32, (1 << 32) + 90, u64::MAX];
    values.extend(edges(rule));
    values
}

fn edges(rule: NumberRule) -> &'static [u64] {
    match rule {
        NumberRule::Year => &[98, 99, 100],
        NumberRule::Week => &[2, 52, 53, 54],
        NumberRule::MainsVoltage => &[89, 90, 480, 481],
        NumberRule::Cri => &[99, 100, 101],
        NumberRule::Cct => &[16_999, 17_000, 17_001, 65_533],
        NumberRule::LightDistributionType => &[5, 6, 7, 252, 253],
        NumberRule::Power | NumberRule::LightOutput | NumberRule::LampCurrent => &[],
    }
}

fn numbers_near_the_ends(field: LuminaireField) -> impl Iterator<Item = u64> {
    let end = end_of_bytes(field);
    (0..300).chain(end.saturating_sub(300)..=end.saturating_add(300))
}

/// The first number past those of the field's bytes, or the largest of all where there is none.
fn end_of_bytes(field: LuminaireField) -> u64 {
    let bits = 8 * u32::from(field.len);
    1u64.checked_shl(bits).unwrap_or(u64::MAX)
}

/// Each field of at most two bytes in each format, with every number of those bytes and some above.
fn every_number() -> Cases<NumberCase> {
    let short = in_formats().filter(|(field, _)| field.len <= 2);
    Box::new(short.flat_map(|(field, format)| {
        let values = 0..=end_of_bytes(field) + 300;
        values.map(move |value| (field, value, format))
    }))
}

fn random_number(source: &mut Source) -> NumberCase {
    let rng = &mut source.rng;
    let field = rng.one_of(&LUMINAIRE_FIELDS);
    let fitting = end_of_bytes(field) - 1;
    let value = match rng.below(4) {
        0 => rng.number_of_any_size(),
        1 => rng.number() & fitting,
        _ => (rng.number() & !fitting) | rng.below(101) as u64,
    };
    (field, value, rng.one_of(&FORMATS))
}

fn header_cases(source: &mut Source) -> Vec<Vec<u8>> {
    let lengths = source.scale.pick((0..=300).collect(), vec![0, 1, 17, 18, 19, 20]);
    lengths.into_iter().map(|length| source.rng.bytes(length)).collect()
}

fn random_header(source: &mut Source) -> Vec<u8> {
    let length = source.rng.below(41);
    source.rng.bytes(length)
}

type WritableCase = (Bank1Layout, LuminaireField);

fn writable_cases(source: &mut Source) -> Vec<WritableCase> {
    let every = every_layout(&mut source.rng);
    let mut cases = Vec::new();
    for field in LUMINAIRE_FIELDS {
        let layouts = source.scale.pick(every.clone(), telling_layouts(field));
        cases.extend(layouts.into_iter().map(|layout| (layout, field)));
    }
    cases
}

/// Every last offset with every small id and some others.
fn every_layout(rng: &mut Rng) -> Vec<Bank1Layout> {
    let others = [rng.number() as u16, rng.number() as u16];
    let ids: Vec<Option<u16>> = (0..=7).chain(others).map(Some).chain([None]).collect();
    let lasts: Vec<Option<u8>> = (0..=u8::MAX).map(Some).chain([None]).collect();
    let mut layouts = Vec::new();
    for implemented in [None, Some(false), Some(true)] {
        for content_format_id in &ids {
            let with_last = |last: &Option<u8>| Bank1Layout {
                implemented,
                content_format_id: *content_format_id,
                last_offset: *last,
            };
            layouts.extend(lasts.iter().map(with_last));
        }
    }
    layouts
}

/// A layout in which the field only just may be written, and others that lack one thing or several.
fn telling_layouts(field: LuminaireField) -> Vec<Bank1Layout> {
    let id = field.since.content_format_id();
    let last = field.last_offset();
    let fits = Bank1Layout { implemented: Some(true), content_format_id: Some(id), last_offset: Some(last) };
    let with_id = |id| Bank1Layout { content_format_id: id, ..fits };
    let too_short = |layout| Bank1Layout { last_offset: Some(last - 1), ..layout };
    vec![
        fits,
        Bank1Layout { implemented: None, ..fits },
        Bank1Layout { implemented: Some(false), ..fits },
        with_id(None),
        with_id(Some(id - 1)),
        with_id(Some(5)),
        with_id(Some(6)),
        with_id(Some(0x0100 + id)),
        Bank1Layout { last_offset: Some(u8::MAX), ..fits },
        too_short(fits),
        too_short(with_id(Some(id - 1))),
        too_short(with_id(Some(6))),
        Bank1Layout { last_offset: None, ..fits },
        Bank1Layout { last_offset: None, ..with_id(Some(6)) },
        Bank1Layout::default(),
        Bank1Layout::from_header(&[0x77]),
        Bank1Layout::from_header(&[]),
    ]
}

fn random_layout(rng: &mut Rng) -> Bank1Layout {
    let id = match rng.below(8) {
        0 => rng.number() as u16,
        _ => rng.below(8) as u16,
    };
    let last = rng.number() as u8;
    Bank1Layout {
        implemented: rng.one_of(&[None, Some(false), Some(true), Some(true)]),
        content_format_id: rng.one_of(&[None, Some(id), Some(id), Some(id)]),
        last_offset: rng.one_of(&[None, Some(last), Some(last), Some(last)]),
    }
}
