//! Cases of a record: a bank's bytes from a start offset on.

use dali2rust_domain::dali::banks::layout::bank_field_map;
use dali2rust_domain::dali::banks::{encode_value, ValueWidth};

use super::since::{record_after, record_of, record_reads, Earlier, RecordAfterCase};
use crate::function::Source;
use crate::rng::Rng;

pub type RecordCase = (u16, Vec<u8>);

/// What a bank holds.
#[derive(Clone, Copy)]
enum Content {
    Random,
    /// In each field its mask less this.
    MaskLess(u8),
    /// In each field its mask but for one byte.
    AlmostMask,
    /// In each field its mask, or one or two less, but for a few bytes of the bank.
    Damaged,
}

const CONTENTS: [Content; 6] = [
    Content::Random,
    Content::MaskLess(0),
    Content::MaskLess(1),
    Content::MaskLess(2),
    Content::AlmostMask,
    Content::Damaged,
];

/// At full scale every length up to this is asked at every start offset up to that.
pub const LONGEST: usize = 300;
pub const LAST_START: u16 = 40;

pub fn record_cases<const BANK: u8>(source: &mut Source) -> Vec<RecordCase> {
    let end = masks(BANK).concat().len();
    let every = (0..=LAST_START).flat_map(|start| (0..=LONGEST).map(move |length| (start, length))).collect();
    let telling = vec![(0, end), (0, end - 1), (3, end - 3)];
    let mut cases = Vec::new();
    for (start, length) in source.scale.pick(every, telling) {
        for content in CONTENTS {
            cases.push(stretch(&mut source.rng, BANK, content, start, length));
        }
    }
    cases
}

pub fn random_record<const BANK: u8>(source: &mut Source) -> RecordCase {
    let longest = source.scale.pick(LONGEST, 40);
    let rng = &mut source.rng;
    let content = rng.one_of(&CONTENTS);
    let start = match rng.below(16) {
        0 => rng.number_of_any_size() as u16,
        1..=7 => rng.below(usize::from(LAST_START) + 1) as u16,
        _ => rng.below(4) as u16,
    };
    let length = match rng.below(16) {
        0 => rng.below(longest + 1),
        _ => rng.below(41),
    };
    stretch(rng, BANK, content, start, length)
}

/// The same stretches, each after any record of the bank or none; and lists of reads.
pub fn record_after_cases<const BANK: u8>(source: &mut Source) -> Vec<RecordAfterCase<BANK>> {
    let stretches = record_cases::<BANK>(source);
    let mut cases: Vec<_> = stretches.into_iter().map(|stretch| after(source, stretch)).collect();
    cases.extend(record_reads(source.scale));
    cases
}

pub fn random_record_after<const BANK: u8>(source: &mut Source) -> RecordAfterCase<BANK> {
    let stretch = random_record::<BANK>(source);
    after(source, stretch)
}

/// Bytes after no record, after one that the parser makes of others, or after one that no parser made.
fn after<const BANK: u8>(source: &mut Source, (start, bytes): RecordCase) -> RecordAfterCase<BANK> {
    let (earlier_start, earlier_bytes) = random_record::<BANK>(source);
    let rng = &mut source.rng;
    let earlier = match rng.below(4) {
        0 => None,
        1 => Some(record_after((earlier_start, rng.number_of_any_size(), None, earlier_bytes))),
        _ => Some(Earlier::unmade(record_of(BANK, &earlier_bytes, earlier_start), rng)),
    };
    (start, rng.number_of_any_size(), earlier, bytes)
}

/// The bytes of such a bank from the start offset on. Behind its fields are any.
fn stretch(rng: &mut Rng, bank: u8, content: Content, start: u16, length: usize) -> RecordCase {
    let mut fields = fields(rng, bank, content);
    let mut bytes = fields.split_off(fields.len().min(usize::from(start)));
    bytes.truncate(length);
    let missing = length - bytes.len();
    bytes.extend((0..missing).map(|_| random_byte(rng)));
    (start, bytes)
}

/// The bytes of the fields of such a bank, or none if they are random too.
fn fields(rng: &mut Rng, bank: u8, content: Content) -> Vec<u8> {
    match content {
        Content::Random => vec![],
        Content::MaskLess(less) => masks_but(bank, |mask| mask[mask.len() - 1] -= less),
        Content::AlmostMask => masks_but(bank, |mask| damage(rng, mask)),
        Content::Damaged => {
            let less = rng.below(3) as u8;
            let mut bytes = fields(rng, bank, Content::MaskLess(less));
            (0..=rng.below(3)).for_each(|_| damage(rng, &mut bytes));
            bytes
        }
    }
}

fn damage(rng: &mut Rng, bytes: &mut [u8]) {
    let place = rng.below(bytes.len());
    bytes[place] = random_byte(rng);
}

fn masks_but(bank: u8, mut change: impl FnMut(&mut [u8])) -> Vec<u8> {
    let mut masks = masks(bank);
    masks.iter_mut().for_each(|mask| change(mask));
    masks.concat()
}

/// The mask of each field of a bank, from offset 0 on. A map has no gaps.
fn masks(bank: u8) -> Vec<Vec<u8>> {
    let of_ones = |lengths: &[usize]| lengths.iter().map(|length| vec![0xFF; *length]).collect();
    match bank {
        0 => of_ones(&[1, 1, 1, 6, 1, 1, 8, 1, 1, 1, 1, 1, 1, 1, 1, 1, 1]),
        1 => of_ones(&[1, 1, 1, 6, 8]),
        _ => bank_field_map(bank).iter().map(|field| mask(field.width)).collect(),
    }
}

fn mask(width: ValueWidth) -> Vec<u8> {
    let mut bytes = vec![0; width.bytes()];
    encode_value(width.mask(), width, &mut bytes);
    bytes
}

/// Bytes around the masks and the ends of a scale.
const EDGES: [u8; 14] = [0x00, 0x01, 0x06, 0x07, 0x7D, 0x7E, 0x7F, 0x80, 0xF9, 0xFA, 0xFC, 0xFD, 0xFE, 0xFF];

fn random_byte(rng: &mut Rng) -> u8 {
    match rng.below(2) {
        0 => rng.number() as u8,
        _ => rng.one_of(&EDGES),
    }
}
