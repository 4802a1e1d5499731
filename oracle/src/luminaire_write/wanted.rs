//! What a plan is asked for: numbers, and at most one text.

use dali2rust_contracts::msg::{LuminaireNumbers, LuminaireText, LuminaireTextWrite};
use dali2rust_domain::dali::banks::luminaire_write::{
    number_patch, planned_writes, FieldKind, FieldWrite, LuminaireField, NumberRule, LUMINAIRE_FIELDS,
};

use super::texts::{printable, put_any_bytes};
use super::{bit_of, end_of_bytes, index_of, index_of_text, telling_numbers, PATCHES, TEXTS};
use crate::function::Source;
use crate::line::{Args, Line, Put, Take};
use crate::rng::Rng;

/// A patch mask, and eleven numbers in the order of `number_values`.
#[derive(Clone, Copy)]
pub struct Numbers {
    pub mask: u16,
    pub values: [u32; 11],
}

/// The mask of all numbers.
pub const ALL: u16 = 0x07FF;

impl Numbers {
    /// No number is wanted, and each member has other bytes than the next.
    pub const NONE: Self = Self {
        mask: 0,
        values: [
            0x0001_0203,
            0x1011_1213,
            0x2021_2223,
            0x3031_3233,
            0x4041_4243,
            0x5051_5253,
            0x6061_6263,
            0x7071_7273,
            0x8081_8283,
            0x9091_9293,
            0xA0A1_A2A3,
        ],
    };

    /// The field's number, if it is wanted.
    pub fn of(&self, field: &LuminaireField) -> Option<u32> {
        let place = place_of(field)?;
        (self.mask >> place & 1 == 1).then_some(self.values[place])
    }

    /// The same numbers, with that field's wanted to be this.
    pub fn with(mut self, field: &LuminaireField, value: u32) -> Self {
        if let Some(place) = place_of(field) {
            self.mask |= 1 << place;
            self.values[place] = value;
        }
        self
    }

    /// The Rust's own: a member keeps the low bytes of its number, and mask bits 11 to 15 have no patch.
    fn members(&self) -> LuminaireNumbers {
        let wanted = PATCHES.into_iter().filter(|patch| self.mask & bit_of(*patch) != 0);
        let patch_mask = wanted.fold(0, |mask, patch| mask | patch);
        let values: Vec<(u16, u32)> = PATCHES.into_iter().zip(self.values).collect();
        LuminaireNumbers { patch_mask, ..number_patch(&values) }
    }
}

/// The place of the field's number in the order of `number_values`.
fn place_of(field: &LuminaireField) -> Option<usize> {
    let FieldKind::Number { patch, .. } = field.kind else {
        return None;
    };
    PATCHES.iter().position(|known| *known == patch)
}

/// A text is wanted if there is a field index for it.
#[derive(Clone)]
pub struct Wanted {
    pub numbers: Numbers,
    pub index: Option<usize>,
    pub text: Vec<u8>,
}

impl Wanted {
    pub const NOTHING: Self = Self { numbers: Numbers::NONE, index: None, text: Vec::new() };

    pub fn number(field: &LuminaireField, value: u32) -> Self {
        Self { numbers: Numbers::NONE.with(field, value), ..Self::NOTHING }
    }

    pub fn text(index: usize, text: &[u8]) -> Self {
        Self { index: Some(index), text: text.to_vec(), ..Self::NOTHING }
    }

    pub fn planned_writes(&self) -> Vec<FieldWrite> {
        planned_writes(&self.numbers.members(), self.text_write().as_ref())
    }

    /// None where the index is that of no text.
    fn text_write(&self) -> Option<LuminaireTextWrite> {
        let field = LUMINAIRE_FIELDS.get(self.index?)?;
        let FieldKind::Text(field) = field.kind else {
            return None;
        };
        Some(LuminaireTextWrite { field, text: LuminaireText(self.text.clone()) })
    }
}

impl Put for Numbers {
    fn put(&self, line: &mut Line) {
        line.put(&(self.mask, self.values));
    }
}

impl Take for Numbers {
    fn take(args: &mut Args) -> Option<Self> {
        let (mask, values) = args.take()?;
        Some(Self { mask, values })
    }
}

impl Put for Wanted {
    fn put(&self, line: &mut Line) {
        line.put(&self.numbers);
        line.put(&self.index);
        line.put(&self.text);
    }
}

impl Take for Wanted {
    fn take(args: &mut Args) -> Option<Self> {
        let (numbers, index, text) = args.take()?;
        Some(Self { numbers, index, text })
    }
}

/// Each mask, or each of one bit, and those of no number and all.
pub fn mask_cases(source: &mut Source) -> Vec<Numbers> {
    let single = (0..16).map(|bit| 1 << bit);
    let telling: Vec<u16> = single.chain([0, 3, ALL, !ALL, u16::MAX]).collect();
    let masks = source.scale.pick((0..=u16::MAX).collect(), telling);
    masks.into_iter().map(|mask| Numbers { mask, ..random_numbers(&mut source.rng) }).collect()
}

/// The fields that have a number, each with its rule.
pub fn number_fields() -> impl Iterator<Item = (&'static LuminaireField, NumberRule)> {
    LUMINAIRE_FIELDS.iter().filter_map(|field| match field.kind {
        FieldKind::Number { rule, .. } => Some((field, rule)),
        _ => None,
    })
}

/// Those of the telling numbers that a plan can be asked for.
pub fn telling_u32s(field: &LuminaireField) -> Vec<u32> {
    telling_numbers(*field).into_iter().filter_map(|number| number.try_into().ok()).collect()
}

/// The fields that have a text.
pub fn text_fields() -> impl Iterator<Item = &'static LuminaireField> {
    TEXTS.into_iter().filter_map(LuminaireField::of_text)
}

/// Texts of every length up to past that of every field and some longer, or of those around the field's own.
pub fn texts_of_lengths(source: &mut Source, field: &LuminaireField) -> Vec<Wanted> {
    let len = usize::from(field.len);
    let every = (0..=70).chain([100, 127, 128, 200, 254, 255]).collect();
    let lengths = source.scale.pick(every, vec![0, 1, 2, len - 1, len, len + 1, 70]);
    let text = |length| Wanted::text(index_of(field), &printable(&mut source.rng, length));
    lengths.into_iter().map(text).collect()
}

/// Mostly what may be accepted in format 5.
pub fn random_wanted(rng: &mut Rng) -> Wanted {
    let numbers = Numbers { mask: random_mask(rng), ..random_numbers(rng) };
    let index = random_index(rng);
    Wanted { numbers, index, text: random_text(rng, index) }
}

/// Mostly of few numbers or none.
fn random_mask(rng: &mut Rng) -> u16 {
    let any = rng.number() as u16;
    let sparse = any & (rng.number() & rng.number()) as u16;
    match rng.below(16) {
        0 => any,
        1 => ALL,
        2..=4 => any & ALL,
        5..=7 => 0,
        _ => sparse & ALL,
    }
}

/// Accepted numbers, at times but for one.
fn random_numbers(rng: &mut Rng) -> Numbers {
    let mut numbers = Numbers::NONE;
    for (field, rule) in number_fields() {
        numbers = numbers.with(field, accepted_number(rng, rule));
    }
    if rng.below(4) > 0 {
        return numbers;
    }
    let fields: Vec<_> = number_fields().collect();
    let (field, rule) = rng.one_of(&fields);
    numbers.with(field, any_number(rng, field, rule))
}

pub fn accepted_number(rng: &mut Rng, rule: NumberRule) -> u32 {
    let (first, end) = match rule {
        NumberRule::Year => (0, 100),
        NumberRule::Week => (1, 54),
        NumberRule::Power | NumberRule::LampCurrent => (0, 0xFFFF),
        NumberRule::MainsVoltage => (90, 481),
        NumberRule::LightOutput => (0, 0xFF_FFFF),
        NumberRule::Cri => (0, 101),
        NumberRule::Cct => (0, 17_001),
        NumberRule::LightDistributionType => (0, 6),
    };
    (first + rng.below(end - first)) as u32
}

/// One of any size, at an edge, in the field's bytes, or accepted but for a bit above these.
fn any_number(rng: &mut Rng, field: &LuminaireField, rule: NumberRule) -> u32 {
    let end = end_of_bytes(*field);
    match rng.below(4) {
        0 => rng.number_of_any_size() as u32,
        1 => rng.one_of(&telling_u32s(field)),
        2 => (rng.number() % end) as u32,
        _ => accepted_number(rng, rule) + end as u32,
    }
}

/// Mostly that of a text.
fn random_index(rng: &mut Rng) -> Option<usize> {
    match rng.below(16) {
        0 => Some(rng.number_of_any_size() as usize),
        1 => Some(rng.below(20)),
        2..=6 => None,
        _ => index_of_text(rng.one_of(&TEXTS)),
    }
}

/// Mostly printable, and of a length near the edges of the field's.
fn random_text(rng: &mut Rng, index: Option<usize>) -> Vec<u8> {
    let field = index.and_then(|index| LUMINAIRE_FIELDS.get(index));
    let len = field.map_or(2, |field| usize::from(field.len));
    let length = match rng.below(16) {
        0 => rng.below(256),
        1 => len + 1 + rng.below(3),
        2..=4 => len,
        5..=6 => len - 1,
        7..=8 => rng.below(4),
        _ => rng.below(len + 1),
    };
    let mut text = printable(rng, length);
    let count = match rng.below(16) {
        0 => 1,
        1 => 2 + rng.below(4),
        _ => 0,
    };
    put_any_bytes(rng, &mut text, count);
    text
}
