//! The functions of `banks/layout.rs`, and the modes of a chunk.

mod modes;

use std::collections::BTreeSet;

use dali2rust_domain::dali::banks::layout::{
    bank_field_map, bank_last_offset, chunk_len, field_containing, is_field_boundary, BankField, BANK_ACTIVE_ENERGY,
    BANK_APPARENT_ENERGY, BANK_CONTROL_GEAR_DIAGNOSTICS, BANK_LIGHT_SOURCE_DIAGNOSTICS, BANK_LOADSIDE_ENERGY,
    BANK_LOCK_BYTE, BANK_LUMINAIRE_MAINTENANCE, BANK_META_LEN, BANK_VERSION_OFFSET, DEVICE_TYPE_DIAGNOSTICS,
    DEVICE_TYPE_ENERGY,
};

use crate::function::{Cases, Function, Row, Source};
use crate::line::{Line, Put};
use crate::rng::Rng;
use modes::CHUNK_LEN_IN;

pub use modes::{chunk_len_in, ChunkMode, MODES};

pub const FUNCTIONS: &[&dyn Function] = &[
    &Row::new(0x10, "bank_last_offset", bank_last_offset, banks),
    &Row::new(
        0x11,
        "bank_field_map, one entry",
        |(bank, index): (u8, usize)| bank_field_map(bank).get(index).copied(),
        entry_cases,
    )
    .random(random_entry),
    &Row::new(0x12, "bank_field_map, its length", |bank| bank_field_map(bank).len(), banks),
    &Row::new(0x13, "field_containing", |(bank, offset)| field_containing(bank, offset), offset_cases)
        .random(random_offset),
    &Row::new(0x14, "is_field_boundary", |(bank, offset)| is_field_boundary(bank, offset), offset_cases)
        .random(random_offset),
    &Row::new(0x15, "the constants of layout.rs", constants, |_| vec![()]),
    &Row::new(
        0x16,
        "chunk_len",
        |(bank, offset, remaining, budget)| chunk_len(bank, offset, remaining, budget),
        chunk_cases,
    )
    .domain(every_chunk)
    .random(random_chunk),
    &CHUNK_LEN_IN,
];

/// The constants in the order of `layout.rs`. The maps are compared entry by entry.
fn constants(_: ()) -> (u16, [u8; 10]) {
    let bytes = [
        BANK_LOCK_BYTE,
        BANK_VERSION_OFFSET,
        DEVICE_TYPE_ENERGY,
        DEVICE_TYPE_DIAGNOSTICS,
        BANK_ACTIVE_ENERGY,
        BANK_APPARENT_ENERGY,
        BANK_LOADSIDE_ENERGY,
        BANK_CONTROL_GEAR_DIAGNOSTICS,
        BANK_LIGHT_SOURCE_DIAGNOSTICS,
        BANK_LUMINAIRE_MAINTENANCE,
    ];
    (BANK_META_LEN, bytes)
}

impl Put for BankField {
    fn put(&self, line: &mut Line) {
        line.put(&(self.offset, self.width));
    }
}

pub const BANKS_WITH_A_MAP: [u8; 7] = [1, 202, 203, 204, 205, 206, 207];

/// The banks with a map and their neighbours, and the first and last bank.
const TELLING_BANKS: [u8; 12] = [0, 1, 2, 201, 202, 203, 204, 205, 206, 207, 208, 255];

fn banks(source: &mut Source) -> Vec<u8> {
    let every = (0..=u8::MAX).collect();
    source.scale.pick(every, TELLING_BANKS.to_vec())
}

fn entry_cases(source: &mut Source) -> Vec<(u8, usize)> {
    let mut cases = Vec::new();
    for bank in banks(source) {
        let near = 0..=source.scale.pick(40, bank_field_map(bank).len());
        let far = [1 << 8, 1 << 16, 1 << 32, 1 << 63, usize::MAX];
        cases.extend(near.chain(far).map(|index| (bank, index)));
    }
    cases
}

fn offset_cases(source: &mut Source) -> Vec<(u8, u16)> {
    let mut cases = Vec::new();
    for bank in banks(source) {
        let near = 0..=source.scale.pick(511, end_of_map(bank) + 1);
        let far = [0x0100, 0x7FFF, 0x8000, 0xFFFE, 0xFFFF];
        cases.extend(near.chain(far).map(|offset| (bank, offset)));
    }
    cases
}

/// The offset after the last field.
fn end_of_map(bank: u8) -> u16 {
    let last = bank_field_map(bank).last();
    last.map_or(0, |field| u16::from(field.offset) + field.width.bytes() as u16)
}

/// Any bank, but one with a map more often than not.
fn random_bank(rng: &mut Rng) -> u8 {
    match rng.below(4) {
        0 => rng.number() as u8,
        _ => rng.one_of(&BANKS_WITH_A_MAP),
    }
}

fn random_entry(source: &mut Source) -> (u8, usize) {
    let rng = &mut source.rng;
    let index = match rng.below(2) {
        0 => rng.number_of_any_size() as usize,
        _ => rng.below(32),
    };
    (random_bank(rng), index)
}

fn random_offset(source: &mut Source) -> (u8, u16) {
    let rng = &mut source.rng;
    let offset = match rng.below(2) {
        0 => rng.number() as u16,
        _ => rng.below(48) as u16,
    };
    (random_bank(rng), offset)
}

type ChunkCase = (u8, u16, u16, u16);

/// A bank of every map, and one without.
const CHUNK_BANKS: [u8; 6] = [1, 9, 202, 205, 206, 207];

fn chunk_cases(_: &mut Source) -> Vec<ChunkCase> {
    let mut cases = vec![
        (202, 5, 6, 4),
        (202, 5, 5, 4),
        (202, 6, 10, 8),
        (202, 5, 6, 0),
        (9, 0, 5, 0),
        (1, 35, 10, 8),
        (1, 192, 10, 1),
    ];
    for bank in CHUNK_BANKS {
        let near = [(1, 0), (5, 8), (300, 0), (300, 1), (300, 5), (300, 6), (300, 8)];
        for offset in edges_of_fields(bank) {
            cases.extend(near.map(|(remaining, budget)| (bank, offset, remaining, budget)));
        }
        let far = [(0, 0), (0, 0xFFFF), (0xFFFF, 0), (0xFFFF, 0xFFFF)];
        for offset in [0, 0x00FF, 0x0100, 0xFFFF] {
            cases.extend(far.map(|(remaining, budget)| (bank, offset, remaining, budget)));
        }
    }
    cases
}

/// The offsets at and around the start of each field of several bytes, and around the end of the map.
fn edges_of_fields(bank: u8) -> BTreeSet<u16> {
    let wide = bank_field_map(bank).iter().filter(|field| field.width.bytes() > 1);
    let starts = wide.flat_map(|field| [field.offset - 1, field.offset, field.offset + 1]);
    let end = end_of_map(bank);
    starts.map(u16::from).chain([end.saturating_sub(1), end]).collect()
}

/// Every offset and remaining length in a bank of 256 bytes and a little past it, with every small budget.
fn every_chunk() -> Cases<ChunkCase> {
    let lengths = || 0..=260;
    let offsets = CHUNK_BANKS.into_iter().flat_map(move |bank| lengths().map(move |offset| (bank, offset)));
    let chunks = offsets.flat_map(move |(bank, offset)| lengths().map(move |remaining| (bank, offset, remaining)));
    let in_budgets = |(bank, offset, remaining)| (0..=40).map(move |budget| (bank, offset, remaining, budget));
    Box::new(chunks.flat_map(in_budgets))
}

fn random_chunk(source: &mut Source) -> ChunkCase {
    let rng = &mut source.rng;
    (random_bank(rng), near_or_far(rng), near_or_far(rng), near_or_far(rng))
}

fn near_or_far(rng: &mut Rng) -> u16 {
    match rng.below(4) {
        0 => rng.number() as u16,
        1 => u16::MAX - rng.below(8) as u16,
        _ => rng.below(48) as u16,
    }
}
