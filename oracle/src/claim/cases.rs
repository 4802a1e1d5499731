//! The cases of the claim: an accepted plan for an old bank, a cut, and the calls behind it.

use std::rc::Rc;

use dali2rust_domain::dali::banks::luminaire_write::{
    check_writable, Bank1Layout, FieldWrite, LuminaireField, NumberRule, LUMINAIRE_FIELDS,
};
use dali2rust_domain::dali::banks::part251::{LuminaireFormat, BANK_LUMINAIRE_INFO};

use crate::cut_plan::CutPlan;
use crate::layout::{chunk_len_in, ChunkMode};
use crate::luminaire_write::{
    accepted_number, index_of, number_fields, planned_stores, printable, telling_u32s, text_fields, Numbers, Wanted,
};
use crate::memory_bank_parser::random_bank;
use crate::read_out::{Call, CallList};
use crate::rng::Rng;

/// What is wanted of an old bank, and the Rust's writes for it.
pub struct Plan {
    pub old: Vec<u8>,
    pub wanted: Wanted,
    pub writes: Vec<FieldWrite>,
}

/// An offset and a value.
pub type Store = (u8, u8);

impl Plan {
    /// "each write by its `FieldWrite::stages`, each stage cut into single bytes from its first"
    pub fn stores(&self) -> Vec<Store> {
        let stages = self.writes.iter().flat_map(FieldWrite::stages);
        stages.flat_map(|stage| (stage.offset..).zip(stage.bytes)).collect()
    }
}

/// Mostly for a bank with most fields of its format, at times for no field.
pub fn random_plan(rng: &mut Rng) -> Rc<Plan> {
    loop {
        let old = random_old(rng);
        let layout = Bank1Layout::from_header(&old);
        let wanted = random_wanted(rng, &layout);
        if planned_stores(&layout, &wanted).is_ok() {
            let writes = wanted.planned_writes();
            return Rc::new(Plan { old, wanted, writes });
        }
    }
}

/// One byte longer than its first byte says, mostly of a format and with its fields.
fn random_old(rng: &mut Rng) -> Vec<u8> {
    let length = match rng.below(16) {
        0 => 1 + rng.below(256),
        1..=3 => usize::from(rng.one_of(&LUMINAIRE_FIELDS).last_offset()) + rng.below(3),
        _ => 0xCA + rng.below(55),
    };
    let id = match rng.below(32) {
        0 => rng.number() as u16,
        1 => rng.below(8) as u16,
        _ => rng.one_of(&[3, 4, 5, 5]),
    };
    let mut bank = random_bank(rng, id, length);
    bank[0] = (length - 1) as u8;
    bank
}

/// Some, all or none of the numbers that may be written, and mostly a text.
fn random_wanted(rng: &mut Rng, layout: &Bank1Layout) -> Wanted {
    let share = rng.one_of(&[0, 1, 2, 4]);
    let mut numbers = Numbers::NONE;
    for (field, rule) in number_fields() {
        if let Ok(format) = check_writable(layout, field) {
            if rng.below(4) < share {
                numbers = numbers.with(field, random_number(rng, field, rule, format));
            }
        }
    }
    let texts: Vec<_> = text_fields().filter(|field| check_writable(layout, field).is_ok()).collect();
    let text = if texts.is_empty() || rng.below(4) == 0 {
        Wanted::NOTHING
    } else {
        let field = rng.one_of(&texts);
        Wanted::text(index_of(field), &random_text(rng, usize::from(field.len)))
    };
    Wanted { numbers, ..text }
}

/// One that the field accepts, at an edge of its rule or any.
fn random_number(rng: &mut Rng, field: &LuminaireField, rule: NumberRule, format: LuminaireFormat) -> u32 {
    loop {
        let number = match rng.below(2) {
            0 => rng.one_of(&telling_u32s(field)),
            _ => accepted_number(rng, rule),
        };
        if field.accepts_number(number.into(), format) {
            return number;
        }
    }
}

fn random_text(rng: &mut Rng, len: usize) -> Vec<u8> {
    let length = match rng.below(8) {
        0..=1 => len,
        2 => len - 1,
        3 => rng.below(3),
        _ => rng.below(len + 1),
    };
    printable(rng, length)
}

/// A cut of a plan, the mode of the read-out behind it, the bank that the program's stores leave there, the calls that
/// read it, and the buffer that they are lent.
pub struct Case {
    pub mode: ChunkMode,
    pub plan: Rc<Plan>,
    pub cut: usize,
    pub bank: Vec<u8>,
    pub calls: Vec<Call>,
    pub buffer: Vec<u8>,
}

impl Case {
    /// The plan at each cut, before the bank is known.
    pub fn at_every_cut(plan: &Rc<Plan>, mode: ChunkMode) -> Vec<Self> {
        let case = |cut| Self { mode, plan: plan.clone(), cut, bank: vec![], calls: vec![], buffer: vec![] };
        (0..=plan.stores().len()).map(case).collect()
    }

    /// Makes calls that read this bank.
    pub fn set_calls(&mut self, rng: &mut Rng, bank: Vec<u8>) {
        self.buffer = random_buffer(rng, bank.len());
        self.calls = random_calls(rng, self.mode, &bank, self.buffer.len());
        self.bank = bank;
    }

    /// What the program is asked. No call has the answer that it is lent.
    pub fn cut_plan(&self) -> CutPlan {
        CutPlan {
            mode: self.mode,
            wanted: self.plan.wanted.clone(),
            cut: self.cut,
            list: CallList::of(&self.calls),
            bank: self.plan.old.clone(),
            buffer: self.buffer.clone(),
            answers: vec![u16::MAX; self.calls.len()],
        }
    }
}

/// Mostly as long as the bank, or a little longer.
fn random_buffer(rng: &mut Rng, needed: usize) -> Vec<u8> {
    let length = match rng.below(32) {
        0 => rng.below(300),
        1 => needed - 1,
        _ => needed + rng.below(4),
    };
    rng.bytes(length)
}

/// How many bytes of calls to make: a request has 4,000 bytes at most, and has the plan too.
const CALLS_LEN: usize = 2_800;

/// Calls on a read-out of this bank. Most lists read it to the end, and some calls come behind that.
fn random_calls(rng: &mut Rng, mode: ChunkMode, bank: &[u8], buffer: usize) -> Vec<Call> {
    let most = rng.one_of(&[1, 4, 12, 60, 60, 300, 300, 300]);
    let takes = buffer >= bank.len();
    let to_the_end = takes && rng.below(8) > 0;
    let mut more = rng.below(9);
    let mut next = 0;
    let mut room = CALLS_LEN;
    let mut calls = Vec::new();
    while room > 0 {
        if !to_the_end || next == bank.len() {
            if more == 0 {
                break;
            }
            more -= 1;
        }
        let (call, read) = random_call(rng, mode, bank, next, most);
        next += if takes { read } else { 0 };
        room = room.saturating_sub(call.len());
        calls.push(call);
    }
    calls
}

/// A call at this offset, and how many bytes it reads if the buffer is long enough. A chunk of the length wanted holds
/// the bank's bytes, and any other holds anything.
fn random_call(rng: &mut Rng, mode: ChunkMode, bank: &[u8], next: usize, most: usize) -> (Call, usize) {
    let budget = random_budget(rng, most);
    if rng.below(8) == 0 {
        return (Call::Wanting(budget), 0);
    }
    let remaining = bank.len() - next;
    let wanted = usize::from(chunk_len_in(mode, BANK_LUMINAIRE_INFO, next as u16, remaining as u16, budget));
    let length = random_length(rng, wanted, remaining);
    if budget == 0 || length != wanted {
        return (Call::Accepting(budget, rng.bytes(length)), 0);
    }
    (Call::Accepting(budget, bank[next..next + wanted].to_vec()), wanted)
}

fn random_budget(rng: &mut Rng, most: usize) -> u16 {
    let budget = match rng.below(16) {
        0 => 0,
        1 => rng.below(301),
        _ => 1 + rng.below(most),
    };
    budget as u16
}

/// Mostly the length wanted.
fn random_length(rng: &mut Rng, wanted: usize, remaining: usize) -> usize {
    match rng.below(32) {
        0 => 0,
        1 => wanted.saturating_sub(1),
        2 => wanted + 1,
        3 => rng.below(12),
        4 => remaining,
        _ => wanted,
    }
}
