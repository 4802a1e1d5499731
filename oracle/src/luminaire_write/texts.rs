//! `LuminaireField::accepts_text`, and why a text is refused, which the Rust does not say.

use dali2rust_domain::dali::banks::luminaire_write::{FieldKind, LuminaireField, LUMINAIRE_FIELDS};
use dali2rust_domain::dali::banks::part251::LuminaireFormat;

use super::wanted::text_fields;
use super::{random_field, TEXTS};
use crate::function::{Row, Scale, Source};
use crate::refusal::Refusal;
use crate::rng::Rng;

pub const TEXT_REFUSAL: Row<TextCase, Result<(), Refusal>> = Row::new(
    0x48,
    "LuminaireField::check_text",
    |(field, text): TextCase| check_accepted(&field, &text),
    refusal_cases,
)
.random(random_refused);

pub type TextCase = (LuminaireField, Vec<u8>);

/// The Rust takes text. Bytes that are no UTF-8 have one from 80 hex on, which its rule never accepts.
pub fn accepts_text(field: &LuminaireField, bytes: &[u8]) -> bool {
    std::str::from_utf8(bytes).is_ok_and(|text| field.accepts_text(text))
}

pub fn check_accepted(field: &LuminaireField, text: &[u8]) -> Result<(), Refusal> {
    if accepts_text(field, text) {
        return Ok(());
    }
    Err(cause(field, text))
}

/// Why the text is refused. The Rust is asked of other texts: every text field accepts the empty one, and blanks are
/// refused for their length alone. Up to the first byte that is not printable each start of the text is accepted.
fn cause(field: &LuminaireField, text: &[u8]) -> Refusal {
    if !accepts_text(field, b"") {
        return Refusal::FieldNotText;
    }
    if !accepts_text(field, &vec![b' '; text.len()]) {
        return Refusal::TextTooLong;
    }
    let accepted = (1..=text.len()).take_while(|length| accepts_text(field, &text[..*length]));
    Refusal::ByteNotPrintable(accepted.count() as u8)
}

pub fn text_cases(source: &mut Source) -> Vec<TextCase> {
    let mut cases = Vec::new();
    for field in LUMINAIRE_FIELDS {
        for length in text_lengths(source.scale, usize::from(field.len)) {
            cases.push((field, printable(&mut source.rng, length)));
        }
        if let FieldKind::Text(_) = field.kind {
            texts_with_another_byte(source, field, &mut cases);
            texts_with_a_letter(source, field, &mut cases);
        }
    }
    cases
}

/// Those around the field's own, and at full scale two past that of every field.
fn text_lengths(scale: Scale, len: usize) -> Vec<usize> {
    let around = [0, 1, len - 1, len, len + 1];
    let more = scale.pick(vec![61, 65], vec![]);
    around.into_iter().chain(more).collect()
}

/// The bytes around the printable ones, and the first and last of all.
pub const TELLING_BYTES: [u8; 7] = [0x00, 0x1F, 0x20, 0x7E, 0x7F, 0x80, 0xFF];

/// Texts that fill the field, with any byte at any place.
fn texts_with_another_byte(source: &mut Source, field: LuminaireField, cases: &mut Vec<TextCase>) {
    let bytes: Vec<u8> = source.scale.pick((0..=u8::MAX).collect(), TELLING_BYTES.to_vec());
    for place in places(source.scale, usize::from(field.len)) {
        for byte in &bytes {
            cases.push((field, printable_but(&mut source.rng, field, place, &[*byte])));
        }
    }
}

/// The letter é: UTF-8, and no byte of it is printable.
const LETTER: &[u8] = &[0xC3, 0xA9];

/// Texts that fill the field, with the letter at any place.
fn texts_with_a_letter(source: &mut Source, field: LuminaireField, cases: &mut Vec<TextCase>) {
    for place in places(source.scale, usize::from(field.len) - 1) {
        cases.push((field, printable_but(&mut source.rng, field, place, LETTER)));
    }
}

/// Every place below the end, or the first and the last.
pub fn places(scale: Scale, end: usize) -> Vec<usize> {
    scale.pick((0..end).collect(), vec![0, end - 1])
}

pub fn printable(rng: &mut Rng, length: usize) -> Vec<u8> {
    (0..length).map(|_| b' ' + rng.below(95) as u8).collect()
}

/// A text that fills the field, printable but for these bytes at this place.
fn printable_but(rng: &mut Rng, field: LuminaireField, place: usize, bytes: &[u8]) -> Vec<u8> {
    let mut text = printable(rng, usize::from(field.len));
    text[place..place + bytes.len()].copy_from_slice(bytes);
    text
}

/// At full scale also those of `accepts_text`. One text has a length whose low byte is 0.
fn refusal_cases(source: &mut Source) -> Vec<TextCase> {
    let mut cases = foreign_texts(source);
    cases.extend(foreign_texts_of(&mut source.rng, Scale::List, LONGEST));
    for field in fields(source.scale) {
        let lengths = [0, usize::from(field.len) + 1, 256];
        cases.extend(lengths.map(|length| (field, printable(&mut source.rng, length))));
    }
    if let Scale::Full = source.scale {
        cases.extend(text_cases(source));
    }
    cases
}

/// No field is longer, and the index of its last byte is the highest.
const LONGEST: LuminaireField =
    LuminaireField { name: "", offset: 0, len: u8::MAX, since: LuminaireFormat::V3, kind: FieldKind::Text(TEXTS[0]) };

/// Each field, or some of each kind: the layout id, numbers and texts.
fn fields(scale: Scale) -> Vec<LuminaireField> {
    let telling = [0, 1, 7, 11, 12, 17].map(|index| LUMINAIRE_FIELDS[index]);
    scale.pick(LUMINAIRE_FIELDS.to_vec(), telling.to_vec())
}

/// Listed fields with foreign bytes in their texts.
pub fn foreign_texts(source: &mut Source) -> Vec<TextCase> {
    let Source { scale, rng } = source;
    fields(*scale).into_iter().flat_map(|field| foreign_texts_of(rng, *scale, field)).collect()
}

/// Texts that fill the field or are too long for it, with foreign bytes at any place, also past the field's end.
fn foreign_texts_of(rng: &mut Rng, scale: Scale, field: LuminaireField) -> Vec<TextCase> {
    let mut cases = Vec::new();
    for more in scale.pick(vec![0, 1, 4], vec![0, 1]) {
        let length = usize::from(field.len) + more;
        let places = foreign_places(scale, length).into_iter();
        cases.extend(places.map(|places| (field, with_foreign_bytes(rng, length, &places))));
    }
    cases
}

/// Each place alone, each two, and all from each on; or the first, the last, both, and the latter half.
fn foreign_places(scale: Scale, length: usize) -> Vec<Vec<usize>> {
    let telling = vec![vec![0], vec![length - 1], vec![0, length - 1], (length / 2..length).collect()];
    let mut every = Vec::new();
    for first in 0..length {
        every.extend((first..length).map(|later| vec![first, later]));
        every.push((first..length).collect());
    }
    scale.pick(every, telling)
}

/// Those around the printable ones, and the first and last of all.
const FOREIGN_BYTES: [u8; 5] = [0x00, 0x1F, 0x7F, 0x80, 0xFF];

fn with_foreign_bytes(rng: &mut Rng, length: usize, places: &[usize]) -> Vec<u8> {
    let mut text = printable(rng, length);
    for place in places {
        text[*place] = rng.one_of(&FOREIGN_BYTES);
    }
    text
}

pub fn random_text(source: &mut Source) -> TextCase {
    let rng = &mut source.rng;
    let field = rng.one_of(&LUMINAIRE_FIELDS);
    let length = rng.below(usize::from(field.len) + 3);
    let mut text = printable(rng, length);
    let byte = [rng.number() as u8];
    let between = rng.one_of(&[&byte, LETTER, &[], &[]]);
    put_between(rng, &mut text, between);
    (field, text)
}

fn put_between(rng: &mut Rng, text: &mut Vec<u8>, bytes: &[u8]) {
    let place = rng.below(text.len() + 1);
    text.splice(place..place, bytes.iter().copied());
}

/// Mostly of a listed text field and about as long, with no other byte, one or several, and at times a letter.
fn random_refused(source: &mut Source) -> TextCase {
    let rng = &mut source.rng;
    let field = random_field_for_text(rng);
    let len = usize::from(field.len);
    let length = match rng.below(4) {
        0 => len + rng.below(4),
        1 => len,
        _ => rng.below(len + 1),
    };
    let mut text = printable(rng, length);
    let count = rng.one_of(&[0, 0, 1, 2, 5]);
    put_any_bytes(rng, &mut text, count);
    if rng.below(4) == 0 {
        put_between(rng, &mut text, LETTER);
    }
    (field, text)
}

fn random_field_for_text(rng: &mut Rng) -> LuminaireField {
    match rng.below(8) {
        0 => rng.one_of(&LUMINAIRE_FIELDS),
        1..=2 => random_field(rng),
        _ => *rng.one_of(&text_fields().collect::<Vec<_>>()),
    }
}

/// Puts so many bytes, each any and at any place.
pub fn put_any_bytes(rng: &mut Rng, text: &mut [u8], count: usize) {
    for _ in 0..count.min(text.len()) {
        text[rng.below(text.len())] = rng.number() as u8;
    }
}
