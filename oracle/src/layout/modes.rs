//! The modes of a chunk, which the Rust lacks: the rule of 02, F-4, over the Rust's `chunk_len`.

use dali2rust_domain::dali::banks::layout::chunk_len;
use dali2rust_domain::dali::banks::part251::BANK_LUMINAIRE_INFO;

use super::{near_or_far, random_bank};
use crate::function::{Cases, Row, Source};
use crate::line::{Args, Line, Put, Take};

#[derive(Clone, Copy, PartialEq)]
pub enum ChunkMode {
    Plain,
    LampCurrent,
}

pub const MODES: [ChunkMode; 2] = [ChunkMode::Plain, ChunkMode::LampCurrent];

pub const CHUNK_LEN_IN: Row<ModeCase, u16> = Row::new(
    0x17,
    "ChunkMode::chunk_len",
    |(mode, bank, offset, remaining, budget)| chunk_len_in(mode, bank, offset, remaining, budget),
    mode_cases,
)
.domain(every_chunk_in_a_mode)
.random(random_chunk_in_a_mode);

type ModeCase = (ChunkMode, u8, u16, u16, u16);

/// "Where the present answer would end between C0 and C1 hex, it is one byte shorter if it has more than one byte; a
/// single byte at C0 becomes two if two remain. All else equals `chunk_len`": "for other banks it equals `chunk_len`".
pub fn chunk_len_in(mode: ChunkMode, bank: u8, offset: u16, remaining: u16, budget: u16) -> u16 {
    let present = chunk_len(bank, offset, remaining, budget);
    let ends_between = offset.checked_add(present) == Some(0xC1);
    if mode == ChunkMode::Plain || bank != BANK_LUMINAIRE_INFO || !ends_between {
        return present;
    }
    match present {
        0 => 0,
        1 => remaining.min(2),
        _ => present - 1,
    }
}

impl Put for ChunkMode {
    fn put(&self, line: &mut Line) {
        line.put(&(*self as u8));
    }
}

impl Take for ChunkMode {
    fn take(args: &mut Args) -> Option<Self> {
        args.one_of(&MODES)
    }
}

/// Bank 1, those that a mode might take for it, and one with a map.
const BANKS: [u8; 5] = [1, 0, 2, 202, 255];

/// The offsets around the lamp current.
const AROUND: std::ops::RangeInclusive<u16> = 0xBC..=0xC4;

fn mode_cases(_: &mut Source) -> Vec<ModeCase> {
    let mut cases = Vec::new();
    for mode in MODES {
        for bank in BANKS {
            for offset in AROUND {
                let near = [(0, 0), (0, 3), (1, 0), (1, 1), (2, 1), (2, 2), (300, 1), (300, 2), (300, 5)];
                cases.extend(near.map(|(remaining, budget)| (mode, bank, offset, remaining, budget)));
            }
        }
        cases.extend([(mode, 1, 0, 0xC1, 300), (mode, 1, 0x24, 300, 0x9D), (mode, 1, 0xFFFF, 0xFFFF, 0xC2)]);
    }
    cases
}

/// In either mode every offset from 0 to 300 with every remaining length to 300, and with every small budget and each
/// that ends around the lamp current.
fn every_chunk_in_a_mode() -> Cases<ModeCase> {
    let of_bank = |(mode, bank)| (0..=300).map(move |offset| (mode, bank, offset));
    let offsets = MODES.into_iter().flat_map(|mode| BANKS.map(|bank| (mode, bank))).flat_map(of_bank);
    let chunks = offsets.flat_map(|(mode, bank, offset)| (0..=300).map(move |left| (mode, bank, offset, left)));
    let in_budgets = |(mode, bank, offset, left)| budgets(offset).map(move |budget| (mode, bank, offset, left, budget));
    Box::new(chunks.flat_map(in_budgets))
}

fn budgets(offset: u16) -> impl Iterator<Item = u16> {
    let ends_around = AROUND.filter_map(move |end| end.checked_sub(offset));
    (0..=8).chain(ends_around.filter(|budget| *budget > 8))
}

fn random_chunk_in_a_mode(source: &mut Source) -> ModeCase {
    let rng = &mut source.rng;
    let bank = match rng.below(2) {
        0 => BANK_LUMINAIRE_INFO,
        _ => random_bank(rng),
    };
    let offset = match rng.below(2) {
        0 => 0xA0 + rng.below(0x30) as u16,
        _ => near_or_far(rng),
    };
    (rng.one_of(&MODES), bank, offset, near_or_far(rng), near_or_far(rng))
}
