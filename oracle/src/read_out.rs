//! The read-out. The Rust has none: here is a plain second implementation, on the Rust's `chunk_len` and the rule of each
//! mode over it. Lists of calls, and the count of chunks, are in its folder.

mod calls;
mod count;

use dali2rust_domain::dali::banks::part251::BANK_LUMINAIRE_INFO;

use crate::function::{Function, Row, Scale, Source};
use crate::layout::{chunk_len_in, ChunkMode, MODES};
use crate::line::{Args, Line, Output, Put, Take};
use crate::luminaire_write::{SHOWS_BACK, STORE_COUNT, TEXT_REFUSAL};
use crate::refusal::Refusal;
use crate::rng::Rng;
use calls::{answered, list_cases, random_list};
use count::CHUNK_COUNT;

pub use calls::{random_answers, random_calls, refused, run, whole_list, Call, CallList, REFUSED};

pub const FUNCTIONS: &[&dyn Function] = &[
    &Row::new(0x40, "ReadOut::starting", starting, start_cases).random(random_start),
    &Row::new(0x41, "ReadOut::done", done, read_outs).random(random_read_out),
    &Row::new(0x42, "ReadOut::wanting", |(read_out, budget)| wanting(read_out, budget), want_cases).random(random_want),
    &Row::new(0x43, "ReadOut::accepting", accepted, accept_cases).random(random_accept),
    &Row::new(0x44, "call_list::run", answered, list_cases).random(random_list),
    &CHUNK_COUNT,
    // The numbers of their own file are used up.
    &STORE_COUNT,
    &SHOWS_BACK,
    &TEXT_REFUSAL,
];

/// Any numbers, also those that no call hands out.
#[derive(Clone, Copy, PartialEq)]
pub struct ReadOut {
    pub bank: u8,
    pub length: u16,
    pub next: u16,
    pub mode: ChunkMode,
}

impl ReadOut {
    /// Of any length, also one that can't be started.
    pub fn from_start(bank: u8, length: u16, mode: ChunkMode) -> Self {
        Self { bank, length, next: 0, mode }
    }
}

pub const MAX_LENGTH: u16 = 256;

type StartCase = (u8, u16, ChunkMode);

pub fn starting((bank, length, mode): StartCase) -> Result<ReadOut, Refusal> {
    sound(ReadOut::from_start(bank, length, mode))
}

fn sound(read_out: ReadOut) -> Result<ReadOut, Refusal> {
    if read_out.length > MAX_LENGTH || read_out.next > read_out.length {
        return Err(Refusal::ReadOutInvalid);
    }
    Ok(read_out)
}

fn done(read_out: ReadOut) -> bool {
    read_out.next == read_out.length
}

/// The length of the chunk wanted, or none when done.
fn wanting(read_out: ReadOut, budget: u16) -> Result<Option<u16>, Refusal> {
    let ReadOut { bank, length, next, mode } = sound(read_out)?;
    if budget == 0 {
        return Err(Refusal::BudgetZero);
    }
    if done(read_out) {
        return Ok(None);
    }
    Ok(Some(chunk_len_in(mode, bank, next, length - next, budget)))
}

/// The read-out advanced past the chunk. When done, an empty chunk advances it by nothing.
fn accepting(read_out: ReadOut, budget: u16, chunk: &[u8], buffer: &mut [u8]) -> Result<ReadOut, Refusal> {
    let wanted = wanting(read_out, budget)?.unwrap_or(0);
    if buffer.len() < usize::from(read_out.length) {
        return Err(Refusal::SliceTooShort);
    }
    if chunk.len() != usize::from(wanted) {
        return Err(Refusal::WrongChunkLength);
    }
    let next = usize::from(read_out.next);
    buffer[next..next + chunk.len()].copy_from_slice(chunk);
    Ok(ReadOut { next: read_out.next + wanted, ..read_out })
}

type AcceptCase = (ReadOut, u16, Vec<u8>, Vec<u8>);

fn accepted((read_out, budget, chunk, mut buffer): AcceptCase) -> (Result<ReadOut, Refusal>, Output) {
    let answer = accepting(read_out, budget, &chunk, &mut buffer);
    (answer, Output(buffer))
}

impl Put for ReadOut {
    fn put(&self, line: &mut Line) {
        line.put(&(self.bank, self.length, self.next, self.mode));
    }
}

impl Take for ReadOut {
    fn take(args: &mut Args) -> Option<Self> {
        let (bank, length, next, mode) = args.take()?;
        Some(Self { bank, length, next, mode })
    }
}

const BANKS: [u8; 10] = [0, 1, 9, 202, 203, 204, 205, 206, 207, 255];

/// Lengths, and offsets in them, around the edges.
const TELLING_LENGTHS: [u16; 10] = [0, 1, 16, 0xC0, 0xC1, 0xC2, 255, 256, 257, u16::MAX];

fn banks_in_modes(scale: Scale) -> Vec<(u8, ChunkMode)> {
    let every = BANKS.into_iter().flat_map(|bank| MODES.map(|mode| (bank, mode)));
    scale.pick(every.collect(), vec![(1, ChunkMode::LampCurrent), (202, ChunkMode::Plain)])
}

fn start_cases(source: &mut Source) -> Vec<StartCase> {
    let every: Vec<u16> = (0..=300).chain([u16::MAX]).collect();
    let lengths = source.scale.pick(every, TELLING_LENGTHS.to_vec());
    let of_bank = |(bank, mode)| lengths.iter().map(move |length| (bank, *length, mode));
    banks_in_modes(source.scale).into_iter().flat_map(of_bank).collect()
}

fn random_start(source: &mut Source) -> StartCase {
    (source.rng.number() as u8, random_length(source), source.rng.one_of(&MODES))
}

fn read_outs(source: &mut Source) -> Vec<ReadOut> {
    let mut read_outs = Vec::new();
    for (bank, mode) in banks_in_modes(source.scale) {
        for length in TELLING_LENGTHS {
            read_outs.extend(TELLING_LENGTHS.map(|next| ReadOut { bank, length, next, mode }));
        }
    }
    read_outs
}

/// At list scale few are long.
fn random_length(source: &mut Source) -> u16 {
    let most = source.scale.pick(MAX_LENGTH, 16);
    let rng = &mut source.rng;
    match rng.below(16) {
        0 => rng.number() as u16,
        1 => MAX_LENGTH - 2 + rng.below(5) as u16,
        2..=8 => rng.below(33) as u16,
        _ => rng.below(usize::from(most) + 1) as u16,
    }
}

fn random_read_out(source: &mut Source) -> ReadOut {
    let length = random_length(source);
    let rng = &mut source.rng;
    let next = match rng.below(16) {
        0 => rng.number() as u16,
        1 => length.saturating_add(1),
        2 => length,
        3 => 0xBC + rng.below(8) as u16,
        4..=8 => rng.below(usize::from(length) + 1) as u16,
        _ => 0,
    };
    let bank = match rng.below(4) {
        0 => BANK_LUMINAIRE_INFO,
        _ => rng.one_of(&BANKS),
    };
    ReadOut { bank, length, next, mode: rng.one_of(&MODES) }
}

fn want_cases(source: &mut Source) -> Vec<(ReadOut, u16)> {
    let at_budgets = |read_out| [0, 1, 5, u16::MAX].map(|budget| (read_out, budget));
    read_outs(source).into_iter().flat_map(at_budgets).collect()
}

fn random_want(source: &mut Source) -> (ReadOut, u16) {
    (random_read_out(source), random_budget(&mut source.rng))
}

/// Mostly a small one.
fn random_budget(rng: &mut Rng) -> u16 {
    match rng.below(16) {
        0 => 0,
        1 => u16::MAX,
        2 => rng.below(301) as u16,
        _ => 1 + rng.below(12) as u16,
    }
}

/// Calls that are accepted, and others that lack one thing or several.
fn accept_cases(source: &mut Source) -> Vec<AcceptCase> {
    let mut cases = Vec::new();
    for (length, next) in [(16, 5), (16, 16), (16, 17), (257, 5), (0, 0)] {
        let read_out = ReadOut { next, ..ReadOut::from_start(202, length, ChunkMode::LampCurrent) };
        for (budget, buffer) in [(0, 15), (0, 16), (5, 15), (5, 16)] {
            for chunk in [0, 1, 5, 6] {
                cases.push((read_out, budget, source.rng.bytes(chunk), source.rng.bytes(buffer)));
            }
        }
    }
    cases
}

fn random_accept(source: &mut Source) -> AcceptCase {
    let read_out = random_read_out(source);
    let rng = &mut source.rng;
    let budget = random_budget(rng);
    let chunk = random_chunk(rng, read_out, budget);
    (read_out, budget, chunk, random_buffer(rng, read_out))
}

/// Mostly as long as wanted.
fn random_chunk(rng: &mut Rng, read_out: ReadOut, budget: u16) -> Vec<u8> {
    let wanted = wanting(read_out, budget).ok().flatten().map_or(0, usize::from);
    let length = match rng.below(16) {
        0 => wanted.saturating_sub(1),
        1 => wanted + 1,
        2 => rng.below(12),
        3 => 0,
        _ => wanted,
    };
    rng.bytes(length)
}

/// Mostly as long as the read-out, or a little longer.
pub fn random_buffer(rng: &mut Rng, read_out: ReadOut) -> Vec<u8> {
    let needed = usize::from(read_out.length.min(MAX_LENGTH));
    let length = match rng.below(8) {
        0 => rng.below(300),
        1 => needed.saturating_sub(1 + rng.below(2)),
        _ => needed + rng.below(4),
    };
    rng.bytes(length)
}
