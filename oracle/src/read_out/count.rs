//! How many chunks a read-out has, all at one budget. The Rust has no such count: here each read-out is run to its end.

use std::ops::RangeInclusive;

use super::{accepting, starting, wanting, MAX_LENGTH};
use crate::function::{Cases, Row, Source};
use crate::layout::{ChunkMode, BANKS_WITH_A_MAP, MODES};
use crate::refusal::Refusal;

pub const CHUNK_COUNT: Row<CountCase, Result<u16, Refusal>> =
    Row::new(0x45, "read_out::chunk_count", chunk_count, telling_counts).domain(every_count);

/// A bank, a length, a mode and a budget.
pub type CountCase = (u8, u16, ChunkMode, u16);

/// Offers each chunk that is wanted, and counts those that are accepted.
fn chunk_count((bank, length, mode, budget): CountCase) -> Result<u16, Refusal> {
    let mut read_out = starting((bank, length, mode))?;
    let mut buffer = [0; MAX_LENGTH as usize];
    let mut count = 0;
    while let Some(wanted) = wanting(read_out, budget)? {
        let chunk = vec![0; usize::from(wanted)];
        read_out = accepting(read_out, budget, &chunk, &mut buffer)?;
        count += 1;
    }
    Ok(count)
}

/// The first length that is refused.
const TOO_LONG: u16 = MAX_LENGTH + 1;

/// The budget at which the second chunk of bank 1, from behind its map on, parts the lamp current's bytes in plain mode.
const PARTING: u16 = 0x9D;

/// Each refusal and both at once, whole read-outs, and in either mode those around the lamp current.
fn telling_counts(_: &mut Source) -> Vec<CountCase> {
    let refused = [(202, 0, 0), (202, 16, 0), (202, TOO_LONG, 5), (202, TOO_LONG, 0), (202, u16::MAX, 5)];
    let whole = [(202, 16, 5), (202, 16, 8), (202, MAX_LENGTH, 1), (9, 0, 1), (9, 10, 4), (1, 36, u16::MAX)];
    let lamp_current = [(1, 0xC1, 1), (1, 0xC1, 5), (1, 0xC2, 1), (1, 0xC2, PARTING), (1, 202, 1), (1, 202, 5)];
    let cases = refused.into_iter().chain(whole).chain(lamp_current);
    cases.flat_map(|(bank, length, budget)| MODES.map(|mode| (bank, length, mode, budget))).collect()
}

const BANKS_WITHOUT_A_MAP: [u8; 6] = [0, 2, 9, 201, 208, 255];

/// Every length that can be started, and some that can't.
fn lengths() -> impl Iterator<Item = u16> {
    (0..=MAX_LENGTH).chain([TOO_LONG, 300, u16::MAX])
}

/// The last ones take in any whole map at once.
const SMALL_BUDGETS: RangeInclusive<u16> = 0..=70;

/// Around the parting one and the longest read-out, and others.
const LARGE_BUDGETS: [u16; 10] =
    [100, 128, PARTING - 1, PARTING, PARTING + 1, MAX_LENGTH - 1, MAX_LENGTH, MAX_LENGTH + 1, 1_000, u16::MAX];

fn every_count() -> Cases<CountCase> {
    let banks = BANKS_WITH_A_MAP.into_iter().chain(BANKS_WITHOUT_A_MAP);
    let in_modes = banks.flat_map(|bank| MODES.map(|mode| (bank, mode)));
    let of_lengths = in_modes.flat_map(|(bank, mode)| lengths().map(move |length| (bank, length, mode)));
    let budgets = || SMALL_BUDGETS.chain(LARGE_BUDGETS);
    Box::new(of_lengths.flat_map(move |(bank, length, mode)| budgets().map(move |budget| (bank, length, mode, budget))))
}
