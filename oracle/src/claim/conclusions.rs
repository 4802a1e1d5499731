//! What the claim concludes, each part computed on its own from the Rust's functions. Quoted sentences are 01's.

use dali2rust_domain::dali::banks::luminaire_write::{FieldKind, FieldWrite, LuminaireField, LUMINAIRE_FIELDS};
use dali2rust_domain::dali::banks::part251::BANK_LUMINAIRE_INFO;
use dali2rust_domain::registry::LuminaireValue;

use super::cases::{Case, Store};
use crate::layout::chunk_len_in;
use crate::line::Args;
use crate::luminaire_write::index_of;
use crate::memory_bank_parser::{luminaire_record, Shown};
use crate::read_out::{refused, Call, ReadOut, REFUSED};
use crate::refusal::Refusal;

/// What the program handed back: the last read-out, and what it was lent.
pub struct ReadBack {
    read_out: ReadOut,
    pub bank: Vec<u8>,
    buffer: Vec<u8>,
    answers: Vec<u16>,
}

impl ReadBack {
    /// None where the plan was refused or the answer is of another length.
    pub fn of(case: &Case, answer: &[u8]) -> Option<Self> {
        let mut args = Args::new(answer);
        let refusal: u8 = args.take()?;
        let back = Self {
            read_out: args.take()?,
            bank: args.several(case.plan.old.len())?,
            buffer: args.several(case.buffer.len())?,
            answers: args.several(case.calls.len())?,
        };
        (refusal == 0 && args.is_empty()).then_some(back)
    }

    pub fn is_done(&self) -> bool {
        self.read_out.next == self.read_out.length
    }

    /// "the buffer's first bytes, as many as the bank has", once the read-out is done.
    fn bank_read(&self) -> Option<&[u8]> {
        self.buffer.get(..self.bank.len()).filter(|_| self.is_done())
    }
}

type Conclusion = fn(&Case, &ReadBack) -> bool;

const CONCLUSIONS: [(&str, Conclusion); 8] = [
    ("0, the bank is the cut one", bank_is_cut),
    ("1, each call answers what the read-out gives at the sum of the accepted chunks", calls_answer),
    ("2, the buffer has the cut bank's bytes up to the next offset and no other change", buffer_is_filled),
    ("3, done after as many accepted chunks as the bank has bytes", ends_in_time),
    ("4, what is in no field is as before", other_bytes_stay),
    ("5, a field with all stores made reads as wanted", made_fields_read_as_wanted),
    ("6, at most one field is begun, and reads empty or by its new leading bytes", begun_field_reads),
    ("7, every other field reads as before", other_fields_read_as_before),
];

/// The conclusions that fail.
pub fn failed(case: &Case, back: &ReadBack) -> Vec<&'static str> {
    CONCLUSIONS.iter().filter(|(_, holds)| !holds(case, back)).map(|(name, _)| *name).collect()
}

/// "A cut is a number from 0 to the count of stores: that many, from the first, have put their value at their offset,
/// and every other byte is as before."
fn bank_is_cut(case: &Case, back: &ReadBack) -> bool {
    let mut bank = case.plan.old.clone();
    for (offset, value) in case.plan.stores().into_iter().take(case.cut) {
        bank[usize::from(offset)] = value;
    }
    back.bank == bank && case.bank == bank
}

/// "The next offset is the sum of the accepted chunks' lengths, each call answers what "The read-out" above gives at
/// that offset".
fn calls_answer(case: &Case, back: &ReadBack) -> bool {
    let offsets = next_offsets(case, back);
    let mut calls = case.calls.iter().zip(&back.answers).zip(&offsets);
    let last = offsets.last().copied();
    calls.all(|((call, answer), next)| answer_at(case, call, *next) == Some(*answer))
        && last == Some(usize::from(back.read_out.next))
        && usize::from(back.read_out.length) == case.plan.old.len()
        && back.read_out.bank == BANK_LUMINAIRE_INFO
        && back.read_out.mode == case.mode
}

/// The sum of the lengths of the chunks that were accepted before each call, and before the end.
fn next_offsets(case: &Case, back: &ReadBack) -> Vec<usize> {
    let mut next = 0;
    let mut offsets = vec![next];
    for (call, answer) in case.calls.iter().zip(&back.answers) {
        next += accepted(call, *answer).unwrap_or(0);
        offsets.push(next);
    }
    offsets
}

/// The length of the chunk, if the answer accepts one.
fn accepted(call: &Call, answer: u16) -> Option<usize> {
    match call {
        Call::Accepting(_, chunk) if answer < REFUSED => Some(chunk.len()),
        _ => None,
    }
}

/// "The chunk it wants is `chunk_len(bank, next, length − next, budget)`. [..] Wanting: 12, 11, then done. Accepting:
/// 12, 11, 13, 14; when done, only an empty chunk is accepted", and "the chosen mode's chunk standing for `chunk_len`"
/// (02, F-4). None for an offset that no read-out has, which is 12.
fn answer_at(case: &Case, call: &Call, next: usize) -> Option<u16> {
    let length = case.plan.old.len();
    let remaining = length.checked_sub(next)? as u16;
    let wanted = |budget| chunk_len_in(case.mode, BANK_LUMINAIRE_INFO, next as u16, remaining, budget);
    Some(match call {
        Call::Wanting(0) | Call::Accepting(0, _) => refused(Refusal::BudgetZero),
        Call::Wanting(_) if remaining == 0 => 0,
        Call::Wanting(budget) => wanted(*budget),
        Call::Accepting(..) if case.buffer.len() < length => refused(Refusal::SliceTooShort),
        Call::Accepting(budget, chunk) if chunk.len() != usize::from(wanted(*budget)) => {
            refused(Refusal::WrongChunkLength)
        }
        Call::Accepting(_, chunk) => (next + chunk.len()) as u16,
    })
}

/// "its bytes stored at that offset in the lent buffer and nothing else there changed", where "A chunk of the length
/// wanted at its call's budget holds the cut bank's bytes from the next offset on".
fn buffer_is_filled(case: &Case, back: &ReadBack) -> bool {
    let next = next_offsets(case, back).last().copied().unwrap_or(0);
    let (Some(read), Some(kept)) = (case.bank.get(..next), case.buffer.get(next..)) else {
        return false;
    };
    back.buffer == [read, kept].concat()
}

/// "after as many accepted chunks as the bank has bytes the read-out is done at the latest."
fn ends_in_time(case: &Case, back: &ReadBack) -> bool {
    let length = case.plan.old.len();
    let offsets = next_offsets(case, back);
    let mut count = 0;
    for ((call, answer), next) in case.calls.iter().zip(&back.answers).zip(&offsets[1..]) {
        count += usize::from(accepted(call, *answer).is_some());
        if count >= length && *next != length {
            return false;
        }
    }
    count < length || back.is_done()
}

/// "The fields are the 18 of `LUMINAIRE_FIELDS`; once the read-out is done, the buffer holds every bank byte outside
/// them as in the old bank."
fn other_bytes_stay(case: &Case, back: &ReadBack) -> bool {
    let in_a_field = |place: usize| {
        let holds = |first: u8, last: u8| (usize::from(first)..=usize::from(last)).contains(&place);
        LUMINAIRE_FIELDS.iter().any(|field| holds(field.offset, field.last_offset()))
    };
    back.bank_read().is_none_or(|bank| {
        let mut bytes = bank.iter().zip(&case.plan.old).enumerate();
        bytes.all(|(place, (now, old))| now == old || in_a_field(place))
    })
}

/// A planned write, and how many of its stores the cut takes in.
struct Share<'a> {
    write: &'a FieldWrite,
    made: usize,
    of: usize,
}

impl Share<'_> {
    fn is_made(&self) -> bool {
        self.made == self.of
    }

    /// "They are begun when the cut takes in one of them"
    fn is_begun(&self) -> bool {
        self.made > 0
    }

    fn index(&self) -> usize {
        index_of(self.write.field)
    }
}

/// "A field's stores are those of its write.": those that lie in the field.
fn shares(case: &Case) -> Vec<Share<'_>> {
    let stores = case.plan.stores();
    let mut shares = Vec::new();
    for write in &case.plan.writes {
        let made = stores_in(write.field, &stores[..case.cut]);
        shares.push(Share { write, made, of: stores_in(write.field, &stores) });
    }
    shares
}

fn stores_in(field: &LuminaireField, stores: &[Store]) -> usize {
    let places = field.offset..=field.last_offset();
    stores.iter().filter(|(offset, _)| places.contains(offset)).count()
}

/// "A field reads as the luminaire record gives it at start offset 0, absent included": its members in the table's
/// order.
fn record_of(bank: &[u8]) -> Vec<Shown> {
    luminaire_record(bank, 0)
}

/// Every planned field whose stores were all made reads as wanted.
fn made_fields_read_as_wanted(case: &Case, back: &ReadBack) -> bool {
    back.bank_read().is_none_or(|bank| {
        let now = record_of(bank);
        let shares = shares(case);
        let mut made = shares.iter().filter(|share| share.is_made());
        made.all(|share| reads_as_wanted(case, share, &now[share.index()]))
    })
}

/// "Wanted is a text's own bytes, or what the record gives for the plan's number in its field's width": every number
/// that a plan accepts shows back.
fn reads_as_wanted(case: &Case, share: &Share, now: &Shown) -> bool {
    let wanted = &case.plan.wanted;
    match share.write.field.kind {
        FieldKind::Number { .. } => {
            let shown = |number| LuminaireValue { raw: number, value: Some(number), part209_implemented: false };
            *now == Shown::Value(wanted.numbers.of(share.write.field).map(shown))
        }
        _ => shows_whole(now, &wanted.text),
    }
}

/// 02, F-8: "yes for every text that a plan accepts"; where one is begun, nothing stands before the 00.
fn shows_whole(now: &Shown, bytes: &[u8]) -> bool {
    matches!(now, Shown::Text(text) if text.shows_whole(bytes))
}

/// At most one field has stores begun and not all made. There a text reads empty, and a number as the record gives the
/// old bank with the new leading bytes in its place: "new leading bytes are those it takes in."
fn begun_field_reads(case: &Case, back: &ReadBack) -> bool {
    let begun: Vec<_> = shares(case).into_iter().filter(|share| share.is_begun() && !share.is_made()).collect();
    let reads = |bank: &[u8]| {
        let now = record_of(bank);
        begun.iter().all(|share| reads_as_begun(case, share, &now[share.index()]))
    };
    begun.len() <= 1 && back.bank_read().is_none_or(reads)
}

fn reads_as_begun(case: &Case, share: &Share, now: &Shown) -> bool {
    let FieldKind::Number { .. } = share.write.field.kind else {
        return shows_whole(now, &[]);
    };
    let mut bank = case.plan.old.clone();
    let start = usize::from(share.write.field.offset);
    bank[start..start + share.made].copy_from_slice(&share.write.bytes[..share.made]);
    *now == record_of(&bank)[share.index()]
}

/// Every other field reads as before: "now from the buffer's first bytes, as many as the bank has; old, or before, from
/// the old bank."
fn other_fields_read_as_before(case: &Case, back: &ReadBack) -> bool {
    back.bank_read().is_none_or(|bank| {
        let begun: Vec<_> = shares(case).iter().filter(|share| share.is_begun()).map(Share::index).collect();
        let (now, before) = (record_of(bank), record_of(&case.plan.old));
        (0..LUMINAIRE_FIELDS.len()).all(|index| begun.contains(&index) || now[index] == before[index])
    })
}
