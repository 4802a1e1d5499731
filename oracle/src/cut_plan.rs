//! A plan that is cut, and the bank read out behind the cut. The Rust has neither: here is a plain second
//! implementation, on those of the plan and of the list of calls.

use dali2rust_domain::dali::banks::luminaire_write::{Bank1Layout, LUMINAIRE_FIELDS};
use dali2rust_domain::dali::banks::part251::BANK_LUMINAIRE_INFO;

use crate::function::{Function, Row, Source};
use crate::layout::{ChunkMode, MODES};
use crate::line::{Args, Line, Output, Put, Sequence, Take};
use crate::luminaire_write::{planned_stores, random_wanted, with_bit, Numbers, Wanted};
use crate::memory_bank_parser::random_bank;
use crate::read_out::{
    random_answers, random_buffer, random_calls, run, starting, whole_list, CallList, ReadOut, MAX_LENGTH,
};
use crate::refusal::Refusal;
use crate::rng::Rng;

pub const FUNCTIONS: &[&dyn Function] =
    &[&Row::new(0x80, "cut_plan::read_back", read_back, cut_cases).random(random_cut)];

/// The mode of the read-out, what is wanted, how many stores are made, the calls behind the cut, and what is lent.
pub struct CutPlan {
    pub mode: ChunkMode,
    pub wanted: Wanted,
    pub cut: usize,
    pub list: CallList,
    pub bank: Vec<u8>,
    pub buffer: Vec<u8>,
    pub answers: Vec<u16>,
}

type Answer = (Result<ReadOut, Refusal>, Output, Output, Sequence<u16>);

fn read_back(mut plan: CutPlan) -> Answer {
    let read_out = plan.store_and_read();
    (read_out, Output(plan.bank), Output(plan.buffer), Sequence(plan.answers))
}

impl CutPlan {
    /// A store past the bank's end has no effect.
    fn store_and_read(&mut self) -> Result<ReadOut, Refusal> {
        let start = start(&self.bank, self.mode)?;
        let layout = Bank1Layout::from_header(&self.bank);
        let stores = planned_stores(&layout, &self.wanted)?;
        for (offset, value) in stores.into_iter().take(self.cut) {
            if let Some(byte) = self.bank.get_mut(usize::from(offset)) {
                *byte = value;
            }
        }
        Ok(run(start, &self.list, &mut self.buffer, &mut self.answers))
    }
}

fn start(bank: &[u8], mode: ChunkMode) -> Result<ReadOut, Refusal> {
    starting((BANK_LUMINAIRE_INFO, bank.len() as u16, mode))
}

impl Put for CutPlan {
    fn put(&self, line: &mut Line) {
        line.put(&self.mode);
        line.put(&self.wanted);
        line.put(&self.cut);
        line.put(&self.list);
        line.put(&self.bank);
        line.put(&self.buffer);
        line.put(&self.answers);
    }
}

impl Take for CutPlan {
    fn take(args: &mut Args) -> Option<Self> {
        let (mode, wanted, cut, list, bank, buffer, answers) = args.take()?;
        Some(Self { mode, wanted, cut, list, bank, buffer, answers })
    }
}

/// A bank that ends with the colour has every number of format 3, and is short.
const SHORT: usize = 0x3C;

fn cut_cases(source: &mut Source) -> Vec<CutPlan> {
    let rng = &mut source.rng;
    let mut cases = at_every_cut(rng);
    cases.extend(refused(rng));
    cases.extend(of_other_lengths(rng));
    cases
}

/// A number and a text, cut at each place and beyond.
fn at_every_cut(rng: &mut Rng) -> Vec<CutPlan> {
    let cuts = (0..=7).chain([255, 1 << 32, usize::MAX]);
    cuts.map(|cut| whole(rng, 3, SHORT, number_and_text(), cut)).collect()
}

/// Three stores of a number and three of a text.
fn number_and_text() -> Wanted {
    Wanted { numbers: Numbers::NONE.with(&LUMINAIRE_FIELDS[7], 0x01_2345), ..Wanted::text(11, b"A") }
}

/// A plan for a bank of this format id that is one byte longer than its first byte says, and a whole read-out.
fn whole(rng: &mut Rng, id: u16, length: usize, wanted: Wanted, cut: usize) -> CutPlan {
    let mut bank = random_bank(rng, id, length);
    bank[0] = (length - 1) as u8;
    let mode = rng.one_of(&MODES);
    let list = start(&bank, mode).map_or(CallList::of(&[]), |start| whole_list(rng, start, 20));
    let answers = random_answers(rng, &list);
    CutPlan { mode, wanted, cut, list, bank, buffer: rng.bytes(length + 1), answers }
}

/// What the person, the luminaire or the caller can be refused for.
fn refused(rng: &mut Rng) -> Vec<CutPlan> {
    let year = &LUMINAIRE_FIELDS[1];
    let full_but_last = [&[b'A'; 23][..], b"\n"].concat();
    let wanted = [
        Wanted { numbers: with_bit(11), ..Wanted::NOTHING },
        Wanted { numbers: with_bit(15), ..Wanted::text(18, b"A") },
        Wanted::text(0, b"A"),
        Wanted::text(1, b"A"),
        Wanted::text(1, b"A\n"),
        Wanted::text(18, b"A"),
        Wanted::text(usize::MAX, b"A"),
        Wanted::text(11, &[b'A'; 25]),
        Wanted::text(11, &[b'\n'; 25]),
        Wanted::text(11, b"\n"),
        Wanted::text(11, b"AB\x7FC\x80"),
        Wanted::text(11, &full_but_last),
        Wanted::text(12, b"A"),
        Wanted::text(13, b"A"),
        Wanted::number(year, 100),
    ];
    let mut cases: Vec<_> = wanted.into_iter().map(|wanted| whole(rng, 3, SHORT, wanted, 6)).collect();
    cases.extend([2, 6, 0x0103].map(|id| whole(rng, id, SHORT, number_and_text(), 6)));
    cases.extend([2, 6].map(|id| whole(rng, id, SHORT, Wanted::NOTHING, 6)));
    cases
}

/// Banks that are empty, too long, or of another length than their first byte says; and buffers that are too short.
fn of_other_lengths(rng: &mut Rng) -> Vec<CutPlan> {
    let mut cases = Vec::new();
    for wanted in [Wanted::NOTHING, number_and_text()] {
        cases.extend([1, 0x12, 0x13, 256, 257].map(|length| whole(rng, 3, length, wanted.clone(), 6)));
        for length in [0, 0x1E, 0x1F, 0x25, 0x3B, 0x3D] {
            let mut case = whole(rng, 3, SHORT, wanted.clone(), 6);
            case.bank.resize(length, 0xAA);
            cases.push(case);
        }
        for length in [0, SHORT - 1, SHORT] {
            let mut case = whole(rng, 3, SHORT, wanted.clone(), 6);
            case.buffer.truncate(length);
            cases.push(case);
        }
    }
    cases
}

/// Mostly a plan that is accepted, and cut within its stores.
fn random_cut(source: &mut Source) -> CutPlan {
    let most = source.scale.pick(CALLS_LEN, 60);
    let rng = &mut source.rng;
    let wanted = random_wanted(rng);
    let bank = random_old(rng);
    let length = (bank.len() as u16).min(MAX_LENGTH);
    let mode = rng.one_of(&MODES);
    let start = ReadOut::from_start(BANK_LUMINAIRE_INFO, length, mode);
    let buffer = random_buffer(rng, start);
    let list = random_calls(rng, start, buffer.clone(), most);
    let answers = random_answers(rng, &list);
    let cut = match rng.below(16) {
        0 => rng.number_of_any_size() as usize,
        1..=3 => rng.below(90),
        _ => rng.below(20),
    };
    CutPlan { mode, wanted, cut, list, bank, buffer, answers }
}

/// How many bytes of calls to make: a request has 4,000 bytes at most, and has the rest of the plan too.
const CALLS_LEN: usize = 2_500;

/// Mostly one byte longer than its first byte says, and with most fields.
fn random_old(rng: &mut Rng) -> Vec<u8> {
    let length = match rng.below(16) {
        0 => rng.below(301),
        1..=3 => usize::from(rng.one_of(&LUMINAIRE_FIELDS).last_offset()) + rng.below(3),
        4..=8 => SHORT,
        _ => 0xCA + rng.below(56),
    };
    let id = match rng.below(16) {
        0 => rng.number_of_any_size() as u16,
        _ => rng.one_of(&[3, 4, 5, 5]),
    };
    let mut bank = random_bank(rng, id, length);
    if let Some(first) = bank.first_mut().filter(|_| rng.below(16) > 0) {
        *first = length.saturating_sub(1) as u8;
    }
    bank
}
