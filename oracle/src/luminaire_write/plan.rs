//! The plan. The Rust has none: here is a plain second implementation, on the Rust's checks, writes and stages.

use dali2rust_domain::dali::banks::luminaire_write::{
    check_writable, Bank1Layout, FieldKind, FieldWrite, LuminaireField, NumberRule, WriteStage, LUMINAIRE_FIELDS,
};

use super::texts::{check_accepted, foreign_texts, TELLING_BYTES};
use super::wanted::{random_wanted, telling_u32s, text_fields, texts_of_lengths, Numbers, Wanted, ALL};
use super::writes::random_more;
use super::{in_telling_formats, index_of, indices, random_layout, telling_layouts};
use crate::function::{Row, Scale, Source};
use crate::line::{Line, Output};
use crate::refusal::Refusal;
use crate::rng::Rng;

/// An offset and a value.
pub type Store = (u8, u8);

/// The stores of an accepted plan. The list of fields is by rising offset, and so are the checks.
pub fn planned_stores(layout: &Bank1Layout, wanted: &Wanted) -> Result<Vec<Store>, Refusal> {
    if wanted.numbers.mask > ALL {
        return Err(Refusal::UnknownMaskBits);
    }
    if wanted.index.is_some_and(|index| index >= LUMINAIRE_FIELDS.len()) {
        return Err(Refusal::UnknownField);
    }
    for (index, field) in LUMINAIRE_FIELDS.iter().enumerate() {
        if let Some(number) = wanted.numbers.of(field) {
            check_number(layout, field, number)?;
        }
        if wanted.index == Some(index) {
            check_text(layout, field, &wanted.text)?;
        }
    }
    Ok(stores_of(wanted))
}

fn check_number(layout: &Bank1Layout, field: &LuminaireField, number: u32) -> Result<(), Refusal> {
    let format = check_writable(layout, field).map_err(Refusal::NotWritable)?;
    if !field.accepts_number(number.into(), format) {
        return Err(Refusal::NumberNotAccepted);
    }
    Ok(())
}

fn check_text(layout: &Bank1Layout, field: &LuminaireField, text: &[u8]) -> Result<(), Refusal> {
    check_writable(layout, field).map_err(Refusal::NotWritable)?;
    check_accepted(field, text)
}

/// Every byte of every stage of every write.
fn stores_of(wanted: &Wanted) -> Vec<Store> {
    let writes = wanted.planned_writes();
    writes.iter().flat_map(FieldWrite::stages).flat_map(single_bytes).collect()
}

fn single_bytes(stage: WriteStage) -> impl Iterator<Item = Store> {
    (stage.offset..).zip(stage.bytes)
}

/// Lays the stores into the two slices, and gives their number.
fn plan(layout: &Bank1Layout, wanted: &Wanted, offsets: &mut [u8], values: &mut [u8]) -> Result<usize, Refusal> {
    let stores = planned_stores(layout, wanted)?;
    if offsets.len() < stores.len() || values.len() < stores.len() {
        return Err(Refusal::SliceTooShort);
    }
    for (place, (offset, value)) in stores.iter().enumerate() {
        offsets[place] = *offset;
        values[place] = *value;
    }
    Ok(stores.len())
}

pub type PlanCase = (Bank1Layout, Wanted, Vec<u8>, Vec<u8>);

pub fn planned((layout, wanted, mut offsets, mut values): PlanCase) -> (Result<usize, Refusal>, Output, Output) {
    let answer = plan(&layout, &wanted, &mut offsets, &mut values);
    (answer, Output(offsets), Output(values))
}

pub type Asked = (Bank1Layout, Wanted);

pub const STORE_COUNT: Row<Asked, Result<usize, Refusal>> = Row::new(0x46, "Plan::count", count, telling_counts);

/// The length of the list that a plan lays.
fn count((layout, wanted): Asked) -> Result<usize, Refusal> {
    planned_stores(&layout, &wanted).map(|stores| stores.len())
}

/// Asks for the count of a plan's stores, whatever slices it is lent.
pub fn ask_count((layout, wanted, ..): &PlanCase, request: &mut Line) {
    STORE_COUNT.put_request(&(*layout, wanted.clone()), request);
}

/// Every field of format 5 may be written.
const ALL_WRITABLE: Bank1Layout =
    Bank1Layout { implemented: Some(true), content_format_id: Some(5), last_offset: Some(0xC9) };

pub fn plan_cases(source: &mut Source) -> Vec<PlanCase> {
    let mut asked = in_layouts(source.scale);
    asked.extend(numbers_in_formats());
    asked.extend(texts(source).into_iter().map(|wanted| (ALL_WRITABLE, wanted)));
    asked.extend((11..16).map(|bit| (ALL_WRITABLE, Wanted { numbers: with_bit(bit), ..Wanted::NOTHING })));
    asked.extend(in_order());
    let rng = &mut source.rng;
    let mut cases: Vec<_> = asked.into_iter().map(|asked| with_slices(rng, asked, [1, 2])).collect();
    for asked in around_slices() {
        let more = [-1, 0, 1].into_iter().flat_map(|first| [-1, 0, 1].map(|second| [first, second]));
        cases.extend(more.map(|more| with_slices(rng, asked.clone(), more)));
    }
    cases
}

/// Each field, and none, in layouts that just allow it or lack something; at full scale also with texts that no field
/// accepts.
fn in_layouts(scale: Scale) -> Vec<Asked> {
    let refused = scale.pick(vec![b"\n".to_vec(), vec![b'A'; 61], vec![b'\n'; 61]], vec![]);
    let mut asked = Vec::new();
    for field in LUMINAIRE_FIELDS {
        let mut wanted = vec![wanting(&field)];
        wanted.extend(refused.iter().map(|text| Wanted::text(index_of(&field), text)));
        for layout in telling_layouts(field) {
            asked.extend(wanted.iter().map(|wanted| (layout, wanted.clone())));
        }
    }
    let layouts = telling_layouts(LUMINAIRE_FIELDS[0]).into_iter();
    asked.extend(layouts.map(|layout| (layout, Wanted::NOTHING)));
    asked
}

/// That field alone, with what its rule accepts.
pub fn wanting(field: &LuminaireField) -> Wanted {
    match field.kind {
        FieldKind::Number { rule: NumberRule::MainsVoltage, .. } => Wanted::number(field, 230),
        FieldKind::Number { .. } => Wanted::number(field, 1),
        FieldKind::LayoutId | FieldKind::Text(_) => Wanted::text(index_of(field), b"AB"),
    }
}

fn numbers_in_formats() -> Vec<Asked> {
    let mut asked = Vec::new();
    let fields = in_telling_formats().into_iter();
    for (field, format) in fields.filter(|(field, _)| matches!(field.kind, FieldKind::Number { .. })) {
        let layout = in_format(format.content_format_id());
        let numbers = telling_u32s(&field).into_iter();
        asked.extend(numbers.map(|number| (layout, Wanted::number(&field, number))));
    }
    asked
}

fn in_format(id: u16) -> Bank1Layout {
    Bank1Layout { content_format_id: Some(id), ..ALL_WRITABLE }
}

fn texts(source: &mut Source) -> Vec<Wanted> {
    let mut texts = vec![Wanted::text(17, b"ABCDEFGH"), Wanted::text(12, "é".as_bytes())];
    texts.extend(indices(source).into_iter().map(|index| Wanted::text(index, b"")));
    for field in text_fields() {
        texts.extend(texts_of_lengths(source, field));
        let index = index_of(field);
        texts.extend(TELLING_BYTES.map(|byte| Wanted::text(index, &[byte, b'A', b'B'])));
        texts.extend(TELLING_BYTES.map(|byte| Wanted::text(index, &[b'A', b'B', byte])));
    }
    texts.extend(foreign_texts(source).into_iter().map(|(field, text)| Wanted::text(index_of(&field), &text)));
    texts
}

/// A mask bit that stands for no number, beside the year's.
pub fn with_bit(bit: u16) -> Numbers {
    Numbers { mask: 1 << bit | 1, ..Numbers::NONE }
}

/// What lacks several things, so that the order of the checks tells.
fn in_order() -> Vec<Asked> {
    let [year, lamp_current] = [1, 16].map(|index| &LUMINAIRE_FIELDS[index]);
    let numbers = Numbers::NONE.with(year, 24);
    let refused = Numbers::NONE.with(year, 100);
    let last_refused = Numbers::NONE.with(lamp_current, 0xFFFF);
    let with_text = |numbers, index, text: &[u8]| Wanted { numbers, ..Wanted::text(index, text) };
    let not_read = Bank1Layout::default();
    let to_year = Bank1Layout { last_offset: Some(year.last_offset()), ..ALL_WRITABLE };
    vec![
        (not_read, with_text(with_bit(11), 18, b"\n")),
        (not_read, with_text(refused, 18, b"\n")),
        (not_read, with_text(refused, 0, b"")),
        (not_read, with_text(refused, 11, b"\n")),
        (ALL_WRITABLE, with_text(refused, 0, b"")),
        (ALL_WRITABLE, with_text(refused, 1, b"")),
        (ALL_WRITABLE, with_text(numbers, 1, b"")),
        (ALL_WRITABLE, with_text(numbers, 1, b"\n\n")),
        (ALL_WRITABLE, with_text(refused, 11, b"\n")),
        (ALL_WRITABLE, with_text(numbers, 11, b"\n")),
        (ALL_WRITABLE, with_text(last_refused, 15, b"\n")),
        (ALL_WRITABLE, with_text(last_refused, 15, b"A")),
        (ALL_WRITABLE, with_text(last_refused, 16, b"A")),
        (ALL_WRITABLE, with_text(last_refused, 17, b"\n")),
        (in_format(4), with_text(last_refused, 13, b"\n")),
        (in_format(4), with_text(last_refused, 13, b"A")),
        (in_format(4), with_text(refused, 14, b"A")),
        (in_format(4), with_text(numbers, 14, b"\n")),
        (in_format(4), with_text(numbers, 14, &[b'\n'; 61])),
        (in_format(6), with_text(refused, 11, b"\n")),
        (to_year, with_text(refused, 11, b"\n")),
        (to_year, with_text(numbers, 11, b"\n")),
        (to_year, with_text(numbers, 11, &[b'\n'; 25])),
    ]
}

/// All numbers, with a text that fills the longest field: no plan has more stores.
pub fn longest() -> Wanted {
    let values = [24, 30, 50, 5, 220, 240, 0x01_2345, 80, 4_000, 6, 350];
    Wanted { numbers: Numbers { mask: ALL, values }, ..Wanted::text(12, &[b'A'; 60]) }
}

/// Formats 3 and 4 lack the lamp current, which is the last number.
const ALL_BUT_LAMP_CURRENT: u16 = ALL >> 1;

/// No plan has more stores in formats 3 and 4. The distribution type is one that both have.
fn longest_before_format_5() -> Wanted {
    let distribution_type = &LUMINAIRE_FIELDS[10];
    let numbers = longest().numbers.with(distribution_type, 5);
    Wanted { numbers: Numbers { mask: ALL_BUT_LAMP_CURRENT, ..numbers }, ..longest() }
}

/// The longest plans, short ones, and each refusal but that of slices.
fn telling_counts(_: &mut Source) -> Vec<Asked> {
    let mut asked = vec![
        (in_format(3), longest_before_format_5()),
        (in_format(4), longest_before_format_5()),
        (in_format(4), longest()),
        (in_format(5), longest()),
    ];
    let texts: [(usize, &[u8]); 6] =
        [(11, b""), (12, b"A"), (12, b"AB"), (12, b"A\x7FB"), (12, &[b'A'; 61]), (17, b"ABCDEFGH")];
    asked.extend(texts.map(|(index, text)| (ALL_WRITABLE, Wanted::text(index, text))));
    for layout in [ALL_WRITABLE, Bank1Layout::default(), Bank1Layout::from_header(&[])] {
        asked.extend([Wanted::NOTHING, wanting(&LUMINAIRE_FIELDS[1])].map(|wanted| (layout, wanted)));
    }
    asked.extend(in_order());
    asked
}

fn around_slices() -> Vec<Asked> {
    let texts =
        [Wanted::text(11, b""), Wanted::text(12, b"AB"), Wanted::text(17, b"ABCDEFGH"), Wanted::text(17, b"\n")];
    let wanted = [Wanted::NOTHING, longest()].into_iter().chain(texts);
    wanted.map(|wanted| (ALL_WRITABLE, wanted)).collect()
}

/// Slices so much longer than the list.
fn with_slices(rng: &mut Rng, (layout, wanted): Asked, more: [isize; 2]) -> PlanCase {
    let count = stores_of(&wanted).len();
    let [offsets, values] = more.map(|more| rng.bytes(count.saturating_add_signed(more)));
    (layout, wanted, offsets, values)
}

pub fn random_plan(source: &mut Source) -> PlanCase {
    let rng = &mut source.rng;
    let asked = random_layout_and_wanted(rng);
    let more = [(); 2].map(|()| random_more(rng));
    with_slices(rng, asked, more)
}

pub fn random_layout_and_wanted(rng: &mut Rng) -> Asked {
    (likely_layout(rng), random_wanted(rng))
}

/// Mostly one in which most fields may be written.
fn likely_layout(rng: &mut Rng) -> Bank1Layout {
    let last = match rng.below(16) {
        0 => rng.number() as u8,
        1 => rng.one_of(&LUMINAIRE_FIELDS).last_offset() - rng.below(2) as u8,
        _ => 0xC9 + rng.below(55) as u8,
    };
    match rng.below(16) {
        0 => random_layout(rng),
        _ => Bank1Layout {
            implemented: rng.one_of(&[None, Some(true)]),
            content_format_id: rng.one_of(&[Some(3), Some(4), Some(5), Some(5), Some(5)]),
            last_offset: Some(last),
        },
    }
}
