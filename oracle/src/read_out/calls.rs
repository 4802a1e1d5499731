//! A list of calls, each with the read-out last handed back.

use super::{
    accepting, banks_in_modes, done, random_budget, random_buffer, random_chunk, random_read_out, sound, wanting,
    ReadOut,
};
use crate::function::{Scale, Source};
use crate::layout::ChunkMode;
use crate::line::{Args, Line, Output, Put, Sequence, Take};
use crate::refusal::Refusal;
use crate::rng::Rng;

pub enum Call {
    Wanting(u16),
    Accepting(u16, Vec<u8>),
}

/// The answer of a refused call is the refusal's number and this.
pub const REFUSED: u16 = 512;

impl Call {
    /// Answers the call with a number. The read-out becomes the one handed back, if there is one.
    fn answer(&self, read_out: &mut ReadOut, buffer: &mut [u8]) -> u16 {
        match self {
            Self::Wanting(budget) => number_of(wanting(*read_out, *budget), |wanted| wanted.unwrap_or(0)),
            Self::Accepting(budget, chunk) => {
                let answer = accepting(*read_out, *budget, chunk, buffer);
                *read_out = answer.unwrap_or(*read_out);
                number_of(answer, |advanced| advanced.next)
            }
        }
    }

    /// How many bytes a request has for the call and its answer.
    pub fn len(&self) -> usize {
        match self {
            Self::Wanting(_) => 6,
            Self::Accepting(_, chunk) => 6 + chunk.len(),
        }
    }
}

fn number_of<T>(answer: Result<T, Refusal>, number: impl FnOnce(T) -> u16) -> u16 {
    answer.map_or_else(refused, number)
}

pub fn refused(refusal: Refusal) -> u16 {
    REFUSED + u16::from(refusal.number())
}

/// Calls as they are lent: two numbers for each, its budget and the length of its chunk, and the bytes of all chunks.
pub struct CallList {
    pub numbers: Vec<u16>,
    pub chunks: Vec<u8>,
}

/// In the place of a chunk's length: the call is wanting.
const WANTING: u16 = u16::MAX;

impl CallList {
    pub fn of(calls: &[Call]) -> Self {
        let mut list = Self { numbers: Vec::new(), chunks: Vec::new() };
        for call in calls {
            match call {
                Call::Wanting(budget) => list.numbers.extend([*budget, WANTING]),
                Call::Accepting(budget, chunk) => {
                    list.numbers.extend([*budget, chunk.len() as u16]);
                    list.chunks.extend(chunk);
                }
            }
        }
        list
    }

    fn count(&self) -> usize {
        self.numbers.len() / 2
    }

    /// A chunk has what is there of its bytes, and an odd last number is no call.
    fn calls(&self) -> Vec<Call> {
        let mut rest = &self.chunks[..];
        let mut calls = Vec::new();
        for call in self.numbers.chunks_exact(2) {
            let (budget, length) = (call[0], call[1]);
            if length == WANTING {
                calls.push(Call::Wanting(budget));
                continue;
            }
            let (chunk, behind) = rest.split_at(rest.len().min(usize::from(length)));
            calls.push(Call::Accepting(budget, chunk.to_vec()));
            rest = behind;
        }
        calls
    }
}

impl Put for CallList {
    fn put(&self, line: &mut Line) {
        line.put(&self.numbers);
        line.put(&self.chunks);
    }
}

impl Take for CallList {
    fn take(args: &mut Args) -> Option<Self> {
        let (numbers, chunks) = args.take()?;
        Some(Self { numbers, chunks })
    }
}

/// Makes the calls, and gives the read-out last handed back. Answers are stored as far as there is room.
pub fn run(start: ReadOut, list: &CallList, buffer: &mut [u8], answers: &mut [u16]) -> ReadOut {
    let mut read_out = start;
    let mut places = answers.iter_mut();
    for call in list.calls() {
        let answer = call.answer(&mut read_out, buffer);
        if let Some(place) = places.next() {
            *place = answer;
        }
    }
    read_out
}

pub type ListCase = (ReadOut, CallList, Vec<u8>, Vec<u16>);

pub fn answered((start, list, mut buffer, mut answers): ListCase) -> (ReadOut, Output, Sequence<u16>) {
    let read_out = run(start, &list, &mut buffer, &mut answers);
    (read_out, Output(buffer), Sequence(answers))
}

pub fn list_cases(source: &mut Source) -> Vec<ListCase> {
    let whole = source.scale.pick(every_whole(), telling_whole());
    let rng = &mut source.rng;
    let mut cases: Vec<_> = whole.into_iter().map(|(start, budget)| whole_read_out(rng, start, budget)).collect();
    cases.extend(odd_lists(rng));
    cases
}

/// A read-out, and the budget of its calls.
type Whole = (ReadOut, u16);

fn telling_whole() -> Vec<Whole> {
    let plain = |(bank, length, budget)| (ReadOut::from_start(bank, length, ChunkMode::Plain), budget);
    let lamp = |(bank, length, budget)| (ReadOut::from_start(bank, length, ChunkMode::LampCurrent), budget);
    let mut whole = vec![];
    whole.extend([(202, 16, 5), (202, 16, 8), (202, 16, 1), (202, 10, 20), (205, 29, 5), (206, 33, 8)].map(plain));
    whole.extend([(1, 40, 6), (9, 10, 4), (1, 0xC2, 0x9D), (1, 0xC2, 1)].map(plain));
    whole.extend([(1, 0xC2, 0x9D), (1, 0xC2, 1), (1, 0xC1, 0x9D), (207, 8, 7), (207, 0, 1)].map(lamp));
    whole
}

fn every_whole() -> Vec<Whole> {
    let mut whole = Vec::new();
    for (bank, mode) in banks_in_modes(Scale::Full) {
        for length in (0..=64).chain([0xC0, 0xC1, 0xC2, 255, 256]) {
            let budgets = (1..=12).chain([300]);
            whole.extend(budgets.map(|budget| (ReadOut::from_start(bank, length, mode), budget)));
        }
    }
    whole
}

fn whole_read_out(rng: &mut Rng, start: ReadOut, budget: u16) -> ListCase {
    let list = whole_list(rng, start, budget);
    let buffer = rng.bytes(usize::from(start.length) + 2);
    let answers = random_u16s(rng, list.count());
    (start, list, buffer, answers)
}

/// Reads a bank out, and asks for each chunk first. Once done, it offers an empty chunk and another.
pub fn whole_list(rng: &mut Rng, start: ReadOut, budget: u16) -> CallList {
    let mut read_out = start;
    let mut calls = Vec::new();
    while let Ok(Some(wanted)) = wanting(read_out, budget) {
        calls.push(Call::Wanting(budget));
        calls.push(Call::Accepting(budget, rng.bytes(usize::from(wanted))));
        read_out.next += wanted;
    }
    calls.push(Call::Wanting(budget));
    calls.extend([0, 1].map(|length| Call::Accepting(budget, rng.bytes(length))));
    CallList::of(&calls)
}

/// Lists that lack a number or bytes or have more of them, and answers for which there is no room or more than is
/// needed.
fn odd_lists(rng: &mut Rng) -> Vec<ListCase> {
    let mut cases = Vec::new();
    for (numbers, chunks) in [(0, 0), (0, 5), (1, 0), (2, 0), (3, 5), (4, 8), (4, 16), (4, 17), (5, 16), (5, 0)] {
        for room in [0, 1, 2, 3] {
            let numbers = [5, 5, 8, 7, 5][..numbers].to_vec();
            let list = CallList { numbers, chunks: rng.bytes(chunks) };
            let start = ReadOut::from_start(202, 16, ChunkMode::Plain);
            cases.push((start, list, rng.bytes(17), random_u16s(rng, room)));
        }
    }
    cases
}

fn random_u16s(rng: &mut Rng, length: usize) -> Vec<u16> {
    (0..length).map(|_| rng.number() as u16).collect()
}

/// How many bytes of calls to make: a request has 4,000 bytes at most, and has a buffer too.
const CALLS_LEN: usize = 3_000;

pub fn random_list(source: &mut Source) -> ListCase {
    let start = random_read_out(source);
    let buffer = random_buffer(&mut source.rng, start);
    let most = source.scale.pick(CALLS_LEN, 60);
    let list = random_calls(&mut source.rng, start, buffer.clone(), most);
    let answers = random_answers(&mut source.rng, &list);
    (start, list, buffer, answers)
}

/// Some calls. Where the read-out can get done, it is read to the end in some lists, and the calls come after that.
pub fn random_calls(rng: &mut Rng, mut read_out: ReadOut, mut buffer: Vec<u8>, most: usize) -> CallList {
    let ends = sound(read_out).is_ok() && buffer.len() >= usize::from(read_out.length);
    let to_the_end = ends && rng.below(4) == 0;
    let mut count = rng.below(21);
    let mut room = most;
    let mut calls = Vec::new();
    while count > 0 && room > 0 {
        let call = random_call(rng, read_out);
        call.answer(&mut read_out, &mut buffer);
        count -= usize::from(!to_the_end || done(read_out));
        room = room.saturating_sub(call.len());
        calls.push(call);
    }
    let mut list = CallList::of(&calls);
    change(rng, &mut list);
    list
}

fn random_call(rng: &mut Rng, read_out: ReadOut) -> Call {
    let budget = random_budget(rng);
    match rng.below(3) {
        0 => Call::Wanting(budget),
        _ => Call::Accepting(budget, random_chunk(rng, read_out, budget)),
    }
}

/// At times bytes are lacking or there are more of them, a length is another, or there is an odd number.
fn change(rng: &mut Rng, list: &mut CallList) {
    match rng.below(16) {
        0 => list.chunks.truncate(rng.below(list.chunks.len() + 1)),
        1 => list.chunks.extend(rng.bytes(2)),
        2 if !list.numbers.is_empty() => {
            let place = rng.below(list.numbers.len());
            list.numbers[place] = rng.number_of_any_size() as u16;
        }
        3 => list.numbers.push(rng.number_of_any_size() as u16),
        _ => {}
    }
}

/// Mostly room for each answer, or a little more.
pub fn random_answers(rng: &mut Rng, list: &CallList) -> Vec<u16> {
    let count = list.count();
    let length = match rng.below(8) {
        0 => rng.below(count + 1),
        1 => count + rng.below(3),
        _ => count,
    };
    random_u16s(rng, length)
}
