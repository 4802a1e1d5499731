//! The writes of a plan: `planned_writes` and `FieldWrite`.

use dali2rust_domain::dali::banks::luminaire_write::{FieldWrite, LuminaireField, WriteStage, LUMINAIRE_FIELDS};

use super::wanted::{number_fields, random_wanted, telling_u32s, text_fields, texts_of_lengths, Numbers, Wanted, ALL};
use super::{index_of, indices};
use crate::function::{Cases, Source};
use crate::line::{Line, Output, Put, Sequence};
use crate::rng::Rng;

/// What is wanted; then outputs for the field index of each write, for its length, and for the bytes of all.
pub type WritesCase = (Wanted, Vec<u8>, Vec<u8>, Vec<u8>);

pub fn all_writes((wanted, fields, lens, bytes): WritesCase) -> (usize, Output, Output, Output) {
    let writes = wanted.planned_writes();
    let indices = writes.iter().map(|write| index_of(write.field) as u8);
    let lengths = writes.iter().map(|write| write.bytes.len() as u8);
    (writes.len(), laid(fields, indices), laid(lens, lengths), laid(bytes, bytes_of(&writes)))
}

fn bytes_of(writes: &[FieldWrite]) -> impl Iterator<Item = u8> + '_ {
    writes.iter().flat_map(|write| &write.bytes).copied()
}

/// The output with the leading bytes that fit at its start.
fn laid(mut output: Vec<u8>, bytes: impl Iterator<Item = u8>) -> Output {
    for (place, byte) in output.iter_mut().zip(bytes) {
        *place = byte;
    }
    Output(output)
}

/// A field index and bytes.
pub type WriteCase = (usize, Vec<u8>);

/// None for an index of no field.
pub fn write_of(index: usize, bytes: Vec<u8>) -> Option<FieldWrite> {
    LUMINAIRE_FIELDS.get(index).map(|field| FieldWrite { field, bytes })
}

pub fn stages((index, bytes): WriteCase) -> (usize, Sequence<WriteStage>) {
    let stages = write_of(index, bytes).map_or(vec![], |write| write.stages());
    (stages.len(), Sequence(stages))
}

impl Put for WriteStage {
    fn put(&self, line: &mut Line) {
        line.put(&(index_of(self.field), self.offset));
        line.put(&self.bytes);
    }
}

pub fn writes_cases(source: &mut Source) -> Vec<WritesCase> {
    let mut wanted = telling_wanted();
    wanted.extend(text_fields().flat_map(|field| texts_of_lengths(source, field)));
    wanted.extend(indices(source).into_iter().map(|index| Wanted::text(index, b"AB")));
    let rng = &mut source.rng;
    let mut cases: Vec<_> = wanted.into_iter().map(|wanted| with_outputs(rng, wanted, [1; 3])).collect();
    for wanted in [Wanted::NOTHING, Wanted::text(12, b"AB"), numbers_and_text()] {
        let each = every_three([-1, 0, 1]).map(|more| with_outputs(rng, wanted.clone(), more));
        cases.extend(each);
    }
    cases
}

/// Masks of every kind, and single numbers at their edges.
fn telling_wanted() -> Vec<Wanted> {
    let with_mask = |mask| Wanted { numbers: Numbers { mask, ..Numbers::NONE }, ..Wanted::NOTHING };
    let masks = (0..16).map(|bit| 1 << bit).chain([ALL, !ALL, u16::MAX]);
    let edges = number_fields().flat_map(|(field, _)| telling_u32s(field).into_iter().map(move |value| (field, value)));
    let single = edges.map(|(field, value)| Wanted::number(field, value));
    masks.map(with_mask).chain(single).collect()
}

/// All numbers with a text between them.
fn numbers_and_text() -> Wanted {
    Wanted { numbers: Numbers { mask: ALL, ..Numbers::NONE }, ..Wanted::text(11, b"red") }
}

fn every_three(values: [isize; 3]) -> impl Iterator<Item = [isize; 3]> {
    let pairs = values.into_iter().flat_map(move |first| values.map(|second| (first, second)));
    pairs.flat_map(move |(first, second)| values.map(|third| [first, second, third]))
}

/// Outputs so much longer than what they take.
fn with_outputs(rng: &mut Rng, wanted: Wanted, [fields, lens, bytes]: [isize; 3]) -> WritesCase {
    let writes = wanted.planned_writes();
    let mut output = |length: usize, more| rng.bytes(length.saturating_add_signed(more));
    let (fields, lens) = (output(writes.len(), fields), output(writes.len(), lens));
    let bytes = output(bytes_of(&writes).count(), bytes);
    (wanted, fields, lens, bytes)
}

/// Every mask.
pub fn every_mask() -> Cases<WritesCase> {
    let wanted = |mask| Wanted { numbers: Numbers { mask, ..Numbers::NONE }, ..Wanted::NOTHING };
    Box::new((0..=u16::MAX).map(move |mask| (wanted(mask), vec![0; 12], vec![0; 12], vec![0; 20])))
}

pub fn random_writes(source: &mut Source) -> WritesCase {
    let rng = &mut source.rng;
    let wanted = random_wanted(rng);
    let more = [(); 3].map(|()| random_more(rng));
    with_outputs(rng, wanted, more)
}

/// How much longer a slice is than what it takes: mostly a little, at times shorter.
pub fn random_more(rng: &mut Rng) -> isize {
    match rng.below(16) {
        0 => rng.below(86) as isize - 80,
        1 => -1,
        2 => -2,
        _ => rng.below(3) as isize,
    }
}

/// Each field with bytes of every length, or of few.
pub fn write_cases(source: &mut Source) -> Vec<WriteCase> {
    let lengths: Vec<usize> = source.scale.pick((0..=255).collect(), vec![0, 1, 2, 3, 8, 255]);
    let mut cases = Vec::new();
    for index in indices(source) {
        cases.extend(lengths.iter().map(|length| (index, source.rng.bytes(*length))));
    }
    cases
}

pub fn random_write(source: &mut Source) -> WriteCase {
    let rng = &mut source.rng;
    let index = match rng.below(16) {
        0 => rng.number_of_any_size() as usize,
        _ => rng.below(19),
    };
    let length = match rng.below(4) {
        0 => rng.below(256),
        _ => rng.below(64),
    };
    (index, rng.bytes(length))
}

/// A write, and a bank.
pub type HeldCase = (usize, Vec<u8>, Vec<u8>);

pub fn held_cases(source: &mut Source) -> Vec<HeldCase> {
    let telling = [0, 1, 7, 12, 17].map(|index| LUMINAIRE_FIELDS[index]).to_vec();
    let fields = source.scale.pick(LUMINAIRE_FIELDS.to_vec(), telling);
    let mut cases = vec![(18, vec![], source.rng.bytes(30)), (usize::MAX, vec![], vec![])];
    for field in fields {
        cases.extend(held_and_not(&mut source.rng, &field));
    }
    cases
}

/// Bytes that a bank holds, longer or shorter ones, none, and banks that lack or change one of theirs.
fn held_and_not(rng: &mut Rng, field: &LuminaireField) -> Vec<HeldCase> {
    let (offset, len) = (usize::from(field.offset), usize::from(field.len));
    let bank = rng.bytes(offset + len);
    let bytes = bank[offset..].to_vec();
    let mut cases = vec![bank.clone(), bank[..offset + len - 1].to_vec(), [&bank[..], &[0]].concat(), vec![]];
    cases.extend([offset - 1, offset, offset + len - 1].map(|place| with_another_byte(&bank, place)));
    let mut cases: Vec<_> = cases.into_iter().map(|bank| (bytes.clone(), bank)).collect();
    cases.push((bytes[..len - 1].to_vec(), bank.clone()));
    cases.push(([&bytes[..], &[0]].concat(), bank.clone()));
    cases.push((rng.bytes(255), bank.clone()));
    cases.extend([offset - 1, offset, offset + 1].map(|length| (vec![], bank[..length].to_vec())));
    cases.into_iter().map(|(bytes, bank)| (index_of(field), bytes, bank)).collect()
}

fn with_another_byte(bank: &[u8], place: usize) -> Vec<u8> {
    let mut bank = bank.to_vec();
    bank[place] ^= 1;
    bank
}

/// Mostly bytes that the bank holds, at times but for one.
pub fn random_held(source: &mut Source) -> HeldCase {
    let (index, mut bytes) = random_write(source);
    let rng = &mut source.rng;
    let offset = LUMINAIRE_FIELDS.get(index).map_or(0, |field| usize::from(field.offset));
    let mut bank = [rng.bytes(offset), bytes.clone()].concat();
    match rng.below(4) {
        0 if !bytes.is_empty() => {
            let place = rng.below(bytes.len());
            bytes[place] ^= 1 << rng.below(8);
        }
        1 => bank.truncate(rng.below(bank.len() + 1)),
        2 => bank.push(rng.number() as u8),
        _ => {}
    }
    (index, bytes, bank)
}
