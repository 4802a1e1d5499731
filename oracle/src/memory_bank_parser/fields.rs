//! Cases of a single byte, reading or scale.

use dali2rust_domain::dali::banks::ValueWidth;

use super::since::{any_reading, reading_reads, ReadingAfterCase};
use crate::banks::{random_raw, telling, write, WIDTHS};
use crate::function::{Scale, Source};
use crate::part251::bytes;
use crate::rng::Rng;

pub type ByteCase = (u16, usize, Vec<u8>);
pub type ScaleCase = (u16, u8, Vec<u8>);

/// Indices around the first and the last byte given; far out; and such that a part of their bits is the first byte's.
pub fn byte_cases(source: &mut Source) -> Vec<ByteCase> {
    let starts: &[u16] = source.scale.pick(&[0, 1, 2, 5, 40, 0xFF, 0x100, 0x7FFF, 0xFFFF], &[0, 3, 0xFFFF]);
    let lengths = source.scale.pick(0..=6, 2..=2);
    let mut cases = Vec::new();
    for start in starts {
        for length in lengths.clone() {
            let first = usize::from(*start);
            let near = first.saturating_sub(2)..=first + length;
            let far = [first + (1 << 16), first + (1 << 32), first + (1 << 63), usize::MAX];
            for index in near.chain(far) {
                cases.push((*start, index, source.rng.bytes(length)));
            }
        }
    }
    cases
}

pub fn random_byte(source: &mut Source) -> ByteCase {
    let rng = &mut source.rng;
    let start = rng.number_of_any_size() as u16;
    let length = rng.below(13);
    let index = match rng.below(4) {
        0 => rng.number_of_any_size() as usize,
        _ => (usize::from(start) + rng.below(length + 2)).saturating_sub(1),
    };
    (start, index, rng.bytes(length))
}

/// A start offset, and how many bytes are given from there on.
type Stretch = (u16, usize);

/// Stretches that have `n` bytes at the offset, with others around them or without, or that lack some or all of them.
fn stretches(scale: Scale, offset: u8, n: usize) -> Vec<Stretch> {
    let offset = u16::from(offset);
    let telling = vec![(offset, n), (offset, n - 1), (offset + 1, n)];
    let past = vec![(offset + 1, n + 1), (offset + 2, n), (0x100, n), (0xFFFF, n)];
    let mut every = [telling.clone(), past].concat();
    for before in 0..=offset.min(3) {
        let whole = usize::from(before) + n;
        let lengths = [0, 1, whole - 1, whole, whole + 1];
        every.extend(lengths.map(|length| (offset - before, length)));
    }
    scale.pick(every, telling)
}

/// Bytes of which those at the offset hold the raw value, as far as they are given.
fn holding(rng: &mut Rng, (start, length): Stretch, offset: u8, width: ValueWidth, raw: u64) -> Vec<u8> {
    let mut bytes = rng.bytes(length);
    if let Some(place) = u16::from(offset).checked_sub(start) {
        write(&mut bytes, usize::from(place), width, raw);
    }
    bytes
}

/// Offsets of fields, and the last ones of a bank.
fn offsets(scale: Scale) -> &'static [u8] {
    scale.pick(&[0, 1, 4, 0x0B, 0x20, 0xFE, 0xFF], &[4])
}

/// Each raw value in each stretch.
fn field_cases(source: &mut Source, width: ValueWidth, raws: &[u64]) -> Vec<ScaleCase> {
    let mut cases = Vec::new();
    for offset in offsets(source.scale) {
        for stretch in stretches(source.scale, *offset, width.bytes()) {
            let of_raw = |raw: &u64| (stretch.0, *offset, holding(&mut source.rng, stretch, *offset, width, *raw));
            cases.extend(raws.iter().map(of_raw));
        }
    }
    cases
}

pub fn reading_cases(source: &mut Source) -> Vec<ReadingAfterCase> {
    let mut cases = Vec::new();
    for width in WIDTHS {
        let own = vec![width.mask(), width.tmask(), width.max_valid()];
        let random = random_raw(&mut source.rng, width);
        let raws = source.scale.pick([telling(width), vec![0, random]].concat(), own);
        for (start, offset, bytes) in field_cases(source, width, &raws) {
            let now_ms = source.rng.number_of_any_size();
            cases.push((start, offset, width, now_ms, any_reading(&mut source.rng), bytes));
        }
        cases.extend(reading_reads(source.scale, width));
    }
    cases
}

pub fn random_reading(source: &mut Source) -> ReadingAfterCase {
    let rng = &mut source.rng;
    let width = rng.one_of(&WIDTHS);
    let any = random_raw(rng, width);
    let raw = rng.one_of(&[any, width.tmask()]);
    let (start, offset, bytes) = random_field(rng, width, raw);
    (start, offset, width, rng.number_of_any_size(), any_reading(rng), bytes)
}

pub fn scale_cases(source: &mut Source) -> Vec<ScaleCase> {
    let bytes = bytes(source, &[0, 6, 7, 0x7D, 0x7E, 0x7F, 0x80, 0xF9, 0xFA, 0xFF]);
    let raws: Vec<u64> = bytes.into_iter().map(u64::from).collect();
    field_cases(source, ValueWidth::I8, &raws)
}

pub fn random_scale(source: &mut Source) -> ScaleCase {
    let rng = &mut source.rng;
    let (any, small) = (rng.number() as u8, rng.below(17) as u8);
    let raw = rng.one_of(&[any, small, small.wrapping_neg()]);
    random_field(rng, ValueWidth::I8, u64::from(raw))
}

/// A start offset, the field's offset, and bytes that mostly hold the raw value there.
fn random_field(rng: &mut Rng, width: ValueWidth, raw: u64) -> ScaleCase {
    let offset = rng.number() as u8;
    let start = match rng.below(16) {
        0 => rng.number() as u16,
        1 => u16::from(offset) + 1 + rng.below(3) as u16,
        _ => u16::from(offset.saturating_sub(rng.below(5) as u8)),
    };
    let before = usize::from(u16::from(offset).saturating_sub(start));
    let length = match rng.below(4) {
        0 => rng.below(13),
        _ => before + width.bytes() + rng.below(3),
    };
    (start, offset, holding(rng, (start, length), offset, width, raw))
}
