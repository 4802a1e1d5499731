//! The functions of `banks/mod.rs`.

use std::collections::BTreeSet;

use dali2rust_domain::dali::banks::{classify, encode_value, read_value, BankValue, ValueWidth};

use crate::function::{Function, Row, Scale, Source};
use crate::line::{Args, Line, Output, Put, Take};
use crate::rng::Rng;

pub const FUNCTIONS: &[&dyn Function] = &[
    &Row::new(0x01, "ValueWidth::bytes", ValueWidth::bytes, widths),
    &Row::new(0x02, "ValueWidth::mask", ValueWidth::mask, widths),
    &Row::new(0x03, "ValueWidth::tmask", ValueWidth::tmask, widths),
    &Row::new(0x04, "ValueWidth::max_valid", ValueWidth::max_valid, widths),
    &Row::new(0x05, "ValueWidth::is_signed", ValueWidth::is_signed, widths),
    &Row::new(0x06, "ValueWidth::to_signed", |(width, raw)| ValueWidth::to_signed(width, raw), signed_cases)
        .random(|source| random_at_width(source, |width, raw| (width, raw))),
    &Row::new(0x07, "BankValue::value", BankValue::value, bank_values),
    &Row::new(0x08, "BankValue::is_temporarily_unavailable", BankValue::is_temporarily_unavailable, bank_values),
    &Row::new(
        0x09,
        "BankValue::is_saturated",
        |(width, value)| BankValue::is_saturated(value, width),
        saturation_cases,
    )
    .random(|source| random_at_width(source, |width, raw| (width, BankValue::Reading(raw)))),
    &Row::new(0x0A, "read_value", |(offset, width, bytes): ReadCase| read_value(&bytes, offset, width), read_cases)
        .random(random_read),
    &Row::new(
        0x0B,
        "classify",
        |(raw, width)| classify(raw, width),
        |source| at_widths(source, |width, raw| (raw, width)),
    )
    .random(|source| random_at_width(source, |width, raw| (raw, width))),
    &Row::new(0x0C, "encode_value", encoded, encode_cases).random(random_encode),
    &Row::new(0x0D, "a byte as i8", |raw: u8| raw as i8, |_| (0..=u8::MAX).collect()),
];

pub const WIDTHS: [ValueWidth; 8] = [
    ValueWidth::U8,
    ValueWidth::U16,
    ValueWidth::U24,
    ValueWidth::U32,
    ValueWidth::U48,
    ValueWidth::I8,
    ValueWidth::I16,
    ValueWidth::I32,
];

impl Put for ValueWidth {
    fn put(&self, line: &mut Line) {
        line.put(&(*self as u8));
    }
}

impl Take for ValueWidth {
    fn take(args: &mut Args) -> Option<Self> {
        args.one_of(&WIDTHS)
    }
}

impl Put for BankValue {
    fn put(&self, line: &mut Line) {
        match self {
            Self::Reading(raw) => line.put(&(0u8, *raw)),
            Self::NotImplemented => line.put(&1u8),
            Self::TemporarilyUnavailable => line.put(&2u8),
        }
    }
}

impl Take for BankValue {
    fn take(args: &mut Args) -> Option<Self> {
        match args.take::<u8>()? {
            0 => args.take().map(Self::Reading),
            1 => Some(Self::NotImplemented),
            2 => Some(Self::TemporarilyUnavailable),
            _ => None,
        }
    }
}

fn widths(_: &mut Source) -> Vec<ValueWidth> {
    WIDTHS.to_vec()
}

/// The bits where some count of bytes has its sign, or ends.
const BYTE_ENDS: &[u32] = &[7, 8, 15, 16, 23, 24, 31, 32, 39, 40, 47, 48, 55, 56, 63];

/// Those of them where one of the widths has its sign, or ends.
const WIDTH_ENDS: &[u32] = &[7, 8, 15, 16, 24, 31, 32, 48, 63];

/// Values around every edge. Those around zero reach round to the largest.
fn edges(scale: Scale, width: ValueWidth) -> BTreeSet<u64> {
    let ends = scale.pick(BYTE_ENDS, WIDTH_ENDS).iter().map(|bit| 1 << bit);
    let own = [0, 1, width.mask(), width.tmask(), width.max_valid()];
    let reach = scale.pick(-3..=3, -1..=0);
    let around = |edge: u64| reach.clone().map(move |by| edge.wrapping_add_signed(by));
    ends.chain(own).flat_map(around).collect()
}

/// Every 16-bit value and the edges, or the edges alone.
fn raws(scale: Scale, width: ValueWidth) -> impl Iterator<Item = u64> {
    let small = scale.pick(0..0x1_0000, 0..0);
    small.chain(edges(scale, width))
}

/// A case of every raw value at every width.
fn at_widths<A>(source: &Source, case: fn(ValueWidth, u64) -> A) -> Vec<A> {
    let at_width = |width| raws(source.scale, width).map(move |raw| case(width, raw));
    WIDTHS.into_iter().flat_map(at_width).collect()
}

/// A case of every raw value at every width; at full scale of each under random high bytes too, and of as many random
/// 32-bit numbers.
fn signed_cases(source: &mut Source) -> Vec<(ValueWidth, u64)> {
    let mut cases = at_widths(source, |width, raw| (width, raw));
    if let Scale::Full = source.scale {
        for width in WIDTHS {
            for raw in raws(source.scale, width) {
                let above = source.rng.number() & !ones(width);
                cases.push((width, above | raw & ones(width)));
                cases.push((width, source.rng.number() >> 32));
            }
        }
    }
    cases
}

fn random_at_width<A>(source: &mut Source, case: fn(ValueWidth, u64) -> A) -> A {
    let width = source.rng.one_of(&WIDTHS);
    case(width, random_raw(&mut source.rng, width))
}

pub fn random_raw(rng: &mut Rng, width: ValueWidth) -> u64 {
    match rng.below(4) {
        0 => rng.number(),
        1 => rng.number_of_any_size(),
        2 => rng.number() & ones(width),
        _ => {
            let end = 1 << rng.one_of(BYTE_ENDS);
            let edge = rng.one_of(&[0, width.mask(), end]);
            edge.wrapping_add_signed(rng.below(7) as i64 - 3)
        }
    }
}

fn bank_values(source: &mut Source) -> Vec<BankValue> {
    let edges = WIDTHS.into_iter().flat_map(|width| edges(source.scale, width));
    let raws: BTreeSet<u64> = edges.collect();
    let readings = raws.into_iter().map(BankValue::Reading);
    readings.chain(NO_READINGS).collect()
}

const NO_READINGS: [BankValue; 2] = [BankValue::NotImplemented, BankValue::TemporarilyUnavailable];

fn saturation_cases(source: &mut Source) -> Vec<(ValueWidth, BankValue)> {
    let mut cases = at_widths(source, |width, raw| (width, BankValue::Reading(raw)));
    for width in WIDTHS {
        cases.extend(NO_READINGS.map(|value| (width, value)));
    }
    cases
}

type ReadCase = (usize, ValueWidth, Vec<u8>);

fn read_cases(source: &mut Source) -> Vec<ReadCase> {
    let mut cases = Vec::new();
    for width in WIDTHS {
        for raw in raws(source.scale, width) {
            cases.push(read_of_raw(&mut source.rng, width, raw));
        }
        reads_near_the_end(source, width, &mut cases);
        reads_far_out(source, width, &mut cases);
    }
    cases
}

/// Reads a raw value from among random bytes.
fn read_of_raw(rng: &mut Rng, width: ValueWidth, raw: u64) -> ReadCase {
    let offset = rng.below(4);
    let length = offset + width.bytes() + rng.below(3);
    let mut bytes = rng.bytes(length);
    write(&mut bytes, offset, width, raw);
    (offset, width, bytes)
}

/// Reads at offsets where the value has room, lacks some or all of it, or is followed by more.
fn reads_near_the_end(source: &mut Source, width: ValueWidth, cases: &mut Vec<ReadCase>) {
    let n = width.bytes();
    let lengths = source.scale.pick(0..=12, n - 1..=n + 1);
    let offsets = source.scale.pick(0..=14, 0..=1);
    for length in lengths {
        for offset in offsets.clone() {
            cases.push((offset, width, source.rng.bytes(length)));
            cases.push((offset, width, vec![0xFF; length]));
            for raw in source.scale.pick(telling(width), vec![width.tmask()]) {
                let mut bytes = source.rng.bytes(length);
                write(&mut bytes, offset, width, raw);
                cases.push((offset, width, bytes));
            }
        }
    }
}

/// Reads at offsets from which the end of the value is past the largest offset, or nearly so.
fn reads_far_out(source: &mut Source, width: ValueWidth, cases: &mut Vec<ReadCase>) {
    let near_the_largest = usize::MAX - source.scale.pick(8, 1)..=usize::MAX;
    let lengths = source.scale.pick(0..=12, 4..=4);
    for offset in near_the_largest.chain([1 << 16, 1 << 32, 1 << 63]) {
        for length in lengths.clone() {
            cases.push((offset, width, source.rng.bytes(length)));
        }
    }
}

fn random_read(source: &mut Source) -> ReadCase {
    let rng = &mut source.rng;
    let width = rng.one_of(&WIDTHS);
    let length = rng.below(13);
    let offset = match rng.below(8) {
        0 => rng.number_of_any_size() as usize,
        _ => rng.below(length + 2),
    };
    let mut bytes = rng.bytes(length);
    if rng.below(2) == 0 {
        let raw = random_raw(rng, width);
        write(&mut bytes, offset, width, raw);
    }
    (offset, width, bytes)
}

/// The largest raw value of a width's bytes.
fn ones(width: ValueWidth) -> u64 {
    u64::MAX >> (64 - 8 * width.bytes())
}

/// The masks, temporary masks and largest readings of both signs in a width's bytes.
pub fn telling(width: ValueWidth) -> Vec<u64> {
    let masks = [ones(width), ones(width) >> 1];
    masks.into_iter().flat_map(|mask| [mask, mask - 1, mask - 2]).collect()
}

/// Writes as much of a raw value as there is room for at the offset.
pub fn write(bytes: &mut [u8], offset: usize, width: ValueWidth, raw: u64) {
    let encoded = raw.to_be_bytes();
    let low = &encoded[encoded.len() - width.bytes()..];
    for (slot, byte) in bytes.iter_mut().skip(offset).zip(low) {
        *slot = *byte;
    }
}

type EncodeCase = (u64, ValueWidth, Vec<u8>);

fn encoded((raw, width, mut out): EncodeCase) -> Output {
    encode_value(raw, width, &mut out);
    Output(out)
}

fn encode_cases(source: &mut Source) -> Vec<EncodeCase> {
    let mut cases = Vec::new();
    for width in WIDTHS {
        for (raw, length) in raws(source.scale, width).zip((0..=8).cycle()) {
            cases.push((raw, width, source.rng.bytes(length)));
        }
        for length in 0..=10 {
            let any = BTreeSet::from([source.rng.number()]);
            for raw in source.scale.pick(edges(source.scale, width), any) {
                cases.push((raw, width, source.rng.bytes(length)));
            }
        }
    }
    cases
}

fn random_encode(source: &mut Source) -> EncodeCase {
    let rng = &mut source.rng;
    let width = rng.one_of(&WIDTHS);
    let raw = random_raw(rng, width);
    let length = rng.below(11);
    (raw, width, rng.bytes(length))
}
