//! Cases of the luminaire record: what bank 1 holds from a start offset on.

use dali2rust_contracts::msg::LuminaireTextField;
use dali2rust_domain::dali::banks::luminaire_write::{FieldKind, LuminaireField, LUMINAIRE_FIELDS};
use dali2rust_domain::dali::banks::part251::CONTENT_FORMAT_ID_OFFSET;

use super::records::{RecordCase, LAST_START, LONGEST};
use super::texts::random_text;
use crate::function::{Cases, Scale, Source};
use crate::luminaire_write::{number_fields, places, telling_u32s, text_fields};
use crate::rng::Rng;

/// The format ids, those around them, and others with the same byte as one of them.
const IDS: [u16; 11] = [0, 1, 2, 3, 4, 5, 6, 7, 0x0103, 0x0500, 0xFFFF];

/// How many bytes a bank has that ends with the last field.
const WHOLE: usize = 0xCA;

pub fn luminaire_cases(source: &mut Source) -> Vec<RecordCase> {
    let mut cases = of_each_id(source);
    cases.extend(of_edges(source));
    cases.extend(with_00(source));
    cases.extend(around_limits(source));
    cases.extend(stretches(source));
    cases
}

fn of_each_id(source: &mut Source) -> Vec<RecordCase> {
    IDS.map(|id| (0, random_bank(&mut source.rng, id, WHOLE))).to_vec()
}

/// In each bank every number is at an edge of its rule or its bytes, and each of its edges is in one of them.
fn of_edges(source: &mut Source) -> Vec<RecordCase> {
    let most = number_fields().map(|(field, _)| telling_u32s(field).len()).max().unwrap_or_default();
    let mut cases = Vec::new();
    for id in source.scale.pick(vec![3, 4, 5], vec![5]) {
        for place in 0..most {
            cases.push((0, bank_of(&mut source.rng, id, WHOLE, |_, field| telling_at(field, place))));
        }
    }
    cases
}

fn telling_at(field: &LuminaireField, place: usize) -> u32 {
    let numbers = telling_u32s(field);
    numbers[place % numbers.len()]
}

/// Texts with 00 at each place, or at the last.
fn with_00(source: &mut Source) -> Vec<RecordCase> {
    let mut cases = Vec::new();
    for field in text_fields() {
        let end = usize::from(field.len);
        for place in source.scale.pick(places(Scale::Full, end), vec![end - 1]) {
            let mut bank = random_bank(&mut source.rng, 5, WHOLE);
            bank[usize::from(field.offset) + place] = 0;
            cases.push((0, bank));
        }
    }
    cases
}

/// What may cross the limit of a text: nothing, or a letter of two bytes, three or four.
const LAST: [&str; 4] = ["", "é", "€", "😀"];

/// Texts that would take a byte less than their limit, as many, and up to three more; and foreign bytes that fill the
/// field.
fn around_limits(source: &mut Source) -> Vec<RecordCase> {
    let lasts = source.scale.pick(LAST.to_vec(), LAST[..2].to_vec());
    let over = source.scale.pick(3, 1);
    let mut cases = Vec::new();
    for field in text_fields() {
        cases.push((0, bank_with(&mut source.rng, field, &vec![0x80; field.len.into()])));
        let limit = limit_of(field);
        for shown in limit - 1..=limit + over {
            for last in &lasts {
                let every = texts_shown_in(shown, usize::from(field.len), last.as_bytes());
                let telling = every[every.len().saturating_sub(2)..].to_vec();
                for text in source.scale.pick(every, telling) {
                    cases.push((0, bank_with(&mut source.rng, field, &text)));
                }
            }
        }
    }
    cases
}

/// "64 bytes (identification) or 32 (others)"
fn limit_of(field: &LuminaireField) -> usize {
    match field.kind {
        FieldKind::Text(LuminaireTextField::LuminaireIdentification) => 64,
        _ => 32,
    }
}

/// Texts of up to so many bytes that would be shown in so many, each foreign byte in four: with each count of foreign
/// bytes, in front of plain ones and behind them, and then the last letter.
fn texts_shown_in(shown: usize, longest: usize, last: &[u8]) -> Vec<Vec<u8>> {
    let room = shown - last.len();
    let parts = (0..=room / 4).map(|foreign| (vec![0x80; foreign], vec![b'A'; room - 4 * foreign]));
    let fitting = parts.filter(|(foreign, plain)| foreign.len() + plain.len() + last.len() <= longest);
    let both = |(foreign, plain): (Vec<u8>, Vec<u8>)| {
        [[&foreign[..], &plain, last].concat(), [&plain[..], &foreign, last].concat()]
    };
    fitting.flat_map(both).collect()
}

/// A bank of format 5 with this text in the field, ended by a 00 where it is shorter.
fn bank_with(rng: &mut Rng, field: &LuminaireField, text: &[u8]) -> Vec<u8> {
    let mut bank = random_bank(rng, 5, WHOLE);
    let stored = &mut bank[usize::from(field.offset)..=usize::from(field.last_offset())];
    for (byte, letter) in stored.iter_mut().zip(text.iter().chain(&[0])) {
        *byte = *letter;
    }
    bank
}

/// Banks that end anywhere and of which the first bytes may be lacking.
fn stretches(source: &mut Source) -> Vec<RecordCase> {
    let every = (0..=LAST_START).flat_map(|start| (0..=LONGEST).map(move |length| (start, length))).collect();
    let stretches = source.scale.pick(every, telling_stretches());
    let rounds = source.scale.pick(6, 1);
    let mut cases = Vec::new();
    for (start, length) in stretches {
        for _ in 0..rounds {
            let id = source.scale.pick(random_id(&mut source.rng), 5);
            cases.push(stretch(&mut source.rng, id, start, length));
        }
    }
    cases
}

/// Around the id, and each text one byte short.
fn telling_stretches() -> Vec<(u16, usize)> {
    let id = u16::from(CONTENT_FORMAT_ID_OFFSET);
    let end = usize::from(id) + 2;
    let around_id = [(0, 0), (0, end - 1), (0, end), (3, end - 3), (id, WHOLE - end + 2), (id + 1, WHOLE)];
    let short = text_fields().map(|field| (0, usize::from(field.last_offset())));
    around_id.into_iter().chain(short).chain([(0, LONGEST), (u16::MAX, WHOLE)]).collect()
}

/// Each number that two bytes hold, in every field as far as its bytes go.
pub fn every_number() -> Cases<RecordCase> {
    Box::new((0..=u16::MAX).map(|number| {
        let mut rng = Rng::new(number.into());
        let repeated = u32::from(number) << 16 | u32::from(number);
        (0, bank_of(&mut rng, 3 + number % 3, WHOLE, |_, _| repeated))
    }))
}

pub fn random_luminaire(source: &mut Source) -> RecordCase {
    let rng = &mut source.rng;
    let start = match rng.below(16) {
        0 => rng.number_of_any_size() as u16,
        1..=3 => rng.below(usize::from(LAST_START) + 1) as u16,
        4..=7 => rng.below(usize::from(CONTENT_FORMAT_ID_OFFSET) + 1) as u16,
        _ => 0,
    };
    let length = match rng.below(8) {
        0 => rng.below(LONGEST + 1),
        1 => usize::from(rng.one_of(&LUMINAIRE_FIELDS).last_offset()) + rng.below(2),
        _ => WHOLE + rng.below(8),
    };
    let id = random_id(rng);
    stretch(rng, id, start, length)
}

/// Mostly that of a format.
fn random_id(rng: &mut Rng) -> u16 {
    match rng.below(16) {
        0 => rng.number() as u16,
        1..=2 => rng.one_of(&IDS),
        _ => 3 + rng.below(3) as u16,
    }
}

/// So many bytes of a bank of this format id, from the start offset on. Behind its own are any.
fn stretch(rng: &mut Rng, id: u16, start: u16, length: usize) -> RecordCase {
    let mut before = random_bank(rng, id, LONGEST);
    let mut bytes = before.split_off(before.len().min(usize::from(start)));
    let missing = length.saturating_sub(bytes.len());
    bytes.extend(rng.bytes(missing));
    bytes.truncate(length);
    (start, bytes)
}

/// A bank of this format id, of any numbers and texts.
pub fn random_bank(rng: &mut Rng, id: u16, length: usize) -> Vec<u8> {
    bank_of(rng, id, length, random_number)
}

/// A bank of this format id with these numbers. The texts are of any bytes, and so is what is in no field.
fn bank_of(rng: &mut Rng, id: u16, length: usize, number: impl Fn(&mut Rng, &LuminaireField) -> u32) -> Vec<u8> {
    let mut bank = rng.bytes(LONGEST);
    for field in &LUMINAIRE_FIELDS {
        let bytes = match field.kind {
            FieldKind::LayoutId => id.to_be_bytes().to_vec(),
            FieldKind::Number { .. } => low_bytes(field, number(rng, field)),
            FieldKind::Text(_) => stored_text(rng, usize::from(field.len)),
        };
        let start = usize::from(field.offset);
        bank[start..start + bytes.len()].copy_from_slice(&bytes);
    }
    bank.truncate(length);
    bank
}

/// The number's low bytes, as many as the field has.
fn low_bytes(field: &LuminaireField, number: u32) -> Vec<u8> {
    let bytes = number.to_be_bytes();
    bytes[bytes.len() - usize::from(field.len)..].to_vec()
}

/// Any number, or one at an edge of its rule or its bytes.
fn random_number(rng: &mut Rng, field: &LuminaireField) -> u32 {
    match rng.below(2) {
        0 => rng.number() as u32,
        _ => rng.one_of(&telling_u32s(field)),
    }
}

/// A text that ends at a 00 or fills its field, or the mask.
fn stored_text(rng: &mut Rng, length: usize) -> Vec<u8> {
    let mut text = random_text(rng, length);
    match rng.below(8) {
        0 => text.fill(0xFF),
        1..=4 => text[rng.below(length)] = 0,
        _ => {}
    }
    text
}
