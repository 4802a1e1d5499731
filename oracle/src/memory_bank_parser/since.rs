//! Since when a reading has been unavailable (02, F-5): the rule from read to read, which the Rust's parsers leave to others,
//! and lists of reads, in which the time is that of the first of a run.

use dali2rust_domain::dali::banks::layout::bank_field_map;
use dali2rust_domain::dali::banks::{encode_value, ValueWidth};
use dali2rust_domain::registry::BankReading;
use dali2rust_registry_runtime::memory_bank_parser::asked::{
    parse_energy_bank, parse_gear_diagnostics, parse_luminaire_maintenance, parse_reading, parse_source_diagnostics,
    Member,
};

use crate::function::Scale;
use crate::line::{Args, Line, Put, Take};
use crate::rng::Rng;

/// A reading of the Rust with its time, after the earlier one of its place.
fn dated(reading: BankReading, now_ms: u64, earlier: Option<BankReading>) -> BankReading {
    assert!(reading.tmask_since_ms.is_none());
    let tmask_since_ms = match (reading.temporarily_unavailable, earlier) {
        (false, _) => None,
        (true, Some(BankReading { temporarily_unavailable: true, tmask_since_ms: kept @ Some(_), .. })) => kept,
        (true, _) => Some(now_ms),
    };
    BankReading { tmask_since_ms, ..reading }
}

/// The readings of a record, present or not, in the order of its members.
fn readings(record: &mut [Member]) -> Vec<&mut Option<BankReading>> {
    let mut readings = Vec::new();
    for member in record {
        match member {
            Member::Reading(reading) => readings.push(reading),
            Member::Condition(flag, counter) => readings.extend([flag, counter]),
            Member::Byte(_) | Member::Number(_) | Member::Scale(_) => {}
        }
    }
    readings
}

/// The Rust's record of one of the banks 202 to 207.
pub fn record_of(bank: u8, bytes: &[u8], start: u16) -> Vec<Member> {
    match bank {
        202..=204 => parse_energy_bank(bytes, start),
        205 => parse_gear_diagnostics(bytes, start),
        206 => parse_source_diagnostics(bytes, start),
        207 => parse_luminaire_maintenance(bytes, start),
        _ => unreachable!("bank {bank} has no readings"),
    }
}

/// An earlier record, member by member.
#[derive(Clone)]
pub struct Earlier<const BANK: u8>(pub Vec<Member>);

impl<const BANK: u8> Earlier<BANK> {
    /// One that no parser made: readings with any time or none, and among them some of any members.
    pub fn unmade(mut record: Vec<Member>, rng: &mut Rng) -> Self {
        for reading in readings(&mut record) {
            let timed = reading.map(|reading| BankReading { tmask_since_ms: any_time(rng), ..reading });
            let any = any_reading(rng);
            *reading = rng.one_of(&[timed, timed, any]);
        }
        Self(record)
    }
}

impl<const BANK: u8> Put for Earlier<BANK> {
    fn put(&self, line: &mut Line) {
        self.0.iter().for_each(|member| line.put(member));
    }
}

impl<const BANK: u8> Take for Earlier<BANK> {
    fn take(args: &mut Args) -> Option<Self> {
        let mut take = |member| {
            Some(match member {
                Member::Byte(_) => Member::Byte(args.take()?),
                Member::Number(_) => Member::Number(args.take()?),
                Member::Scale(_) => Member::Scale(args.take()?),
                Member::Reading(_) => Member::Reading(args.take()?),
                Member::Condition(..) => Member::Condition(args.take()?, args.take()?),
            })
        };
        let members: Option<Vec<Member>> = record_of(BANK, &[], 0).into_iter().map(&mut take).collect();
        members.map(Self)
    }
}

/// A start offset, the present time, the earlier record if any, and the bytes.
pub type RecordAfterCase<const BANK: u8> = (u16, u64, Option<Earlier<BANK>>, Vec<u8>);

pub fn record_after<const BANK: u8>((start, now_ms, earlier, bytes): RecordAfterCase<BANK>) -> Earlier<BANK> {
    let mut record = record_of(BANK, &bytes, start);
    let mut earlier = earlier.map_or(vec![], |Earlier(members)| members);
    let mut before = readings(&mut earlier).into_iter();
    for reading in readings(&mut record) {
        let before = before.next().and_then(|reading| *reading);
        *reading = reading.map(|reading| dated(reading, now_ms, before));
    }
    Earlier(record)
}

/// Any time or none, at the ends of its range too.
fn any_time(rng: &mut Rng) -> Option<u64> {
    let any = rng.number_of_any_size();
    rng.one_of(&[None, Some(any), Some(0), Some(u64::MAX)])
}

/// A reading of any members, as no parser makes it.
pub fn any_reading(rng: &mut Rng) -> Option<BankReading> {
    let value = rng.number_of_any_size();
    let reading = BankReading {
        value: rng.one_of(&[None, Some(value)]),
        not_implemented: rng.one_of(&[false, true]),
        temporarily_unavailable: rng.one_of(&[false, true]),
        saturated: rng.one_of(&[false, true]),
        tmask_since_ms: any_time(rng),
    };
    rng.one_of(&[None, Some(reading)])
}

/// What a place holds when it is read.
#[derive(Clone, Copy)]
enum State {
    Value,
    NotImplemented,
    Unavailable,
}

use State::{NotImplemented, Unavailable, Value};

/// A value goes, stays away, comes back and goes again. Then the place is not implemented before it is unavailable.
const STATES: [State; 11] = [
    Value,
    Unavailable,
    Unavailable,
    Unavailable,
    Value,
    Unavailable,
    Unavailable,
    NotImplemented,
    Unavailable,
    Unavailable,
    Unavailable,
];

/// How many reads a list has: each place is in every state twice.
const READS: usize = 2 * STATES.len();

/// The read in which the second half of the bytes is lacking.
const CUT_SHORT: usize = STATES.len() - 2;

/// The present times of a list of reads: they run, stand still, go back, and go back to run on.
type Clock = fn(usize) -> u64;

const CLOCKS: [Clock; 4] =
    [|read| 1000 * read as u64, |_| 5000, |read| u64::MAX - read as u64, |read| 9000 - 2000 * (read as u64 % 5)];

/// All of them, or the one that goes back.
fn clocks(scale: Scale) -> &'static [Clock] {
    scale.pick(&CLOCKS, &CLOCKS[2..3])
}

/// The bytes of these fields, each a state ahead of the one before it.
fn bytes_in(read: usize, widths: impl Iterator<Item = ValueWidth>) -> Vec<u8> {
    let states = STATES.into_iter().cycle().skip(read);
    let mut bytes: Vec<u8> = widths.zip(states).flat_map(|(width, state)| field_bytes(state, width)).collect();
    if read == CUT_SHORT {
        bytes.truncate(bytes.len() / 2);
    }
    bytes
}

fn field_bytes(state: State, width: ValueWidth) -> Vec<u8> {
    let raw = match state {
        Value => 1,
        NotImplemented => width.mask(),
        Unavailable => width.tmask(),
    };
    let mut bytes = vec![0; width.bytes()];
    encode_value(raw, width, &mut bytes);
    bytes
}

/// The last of the readings that a place had, with the present time of the first of the unavailable ones that it ends.
fn last_of(found: &[Option<BankReading>], clock: Clock) -> Option<BankReading> {
    let unavailable = |reading: &&Option<BankReading>| reading.is_some_and(|reading| reading.temporarily_unavailable);
    let run = found.iter().rev().take_while(unavailable).count();
    let tmask_since_ms = (run != 0).then(|| clock(found.len() - run));
    found.last().copied().flatten().map(|last| BankReading { tmask_since_ms, ..last })
}

pub type ReadingAfterCase = (u16, u8, ValueWidth, u64, Option<BankReading>, Vec<u8>);

pub fn reading_after((start, offset, width, now_ms, earlier, bytes): ReadingAfterCase) -> Option<BankReading> {
    parse_reading(&bytes, start, offset, width).map(|reading| dated(reading, now_ms, earlier))
}

/// Lists of reads of a place where the bytes start, by each clock. The rule from read to read agrees with the list as a
/// whole.
pub fn reading_reads(scale: Scale, width: ValueWidth) -> Vec<ReadingAfterCase> {
    const OFFSET: u8 = 5;
    let mut cases = Vec::new();
    for &clock in clocks(scale) {
        let mut found = Vec::new();
        for read in 0..READS {
            let bytes = bytes_in(read, std::iter::once(width));
            let earlier = last_of(&found, clock);
            found.push(parse_reading(&bytes, OFFSET.into(), OFFSET, width));
            let case = (OFFSET.into(), OFFSET, width, clock(read), earlier, bytes);
            assert_eq!(reading_after(case.clone()), last_of(&found, clock));
            cases.push(case);
        }
    }
    cases
}

/// Lists of reads of a whole bank, by each clock. Here too the rule agrees with the list as a whole.
pub fn record_reads<const BANK: u8>(scale: Scale) -> Vec<RecordAfterCase<BANK>> {
    let mut cases = Vec::new();
    for &clock in clocks(scale) {
        let mut records: Vec<Vec<Member>> = Vec::new();
        for read in 0..READS {
            let bytes = bytes_in(read, bank_field_map(BANK).iter().map(|field| field.width));
            let earlier = last_record(&mut records, clock);
            records.push(record_of(BANK, &bytes, 0));
            let case = (0, clock(read), earlier.map(Earlier), bytes);
            assert_eq!(Some(record_after(case.clone()).0), last_record(&mut records, clock));
            cases.push(case);
        }
    }
    cases
}

/// The last of the records that a bank had, each reading with its time in the whole list.
fn last_record(records: &mut [Vec<Member>], clock: Clock) -> Option<Vec<Member>> {
    let mut last = records.last()?.clone();
    let mut found: Vec<_> = records.iter_mut().map(|record| readings(record).into_iter()).collect();
    for reading in readings(&mut last) {
        let of_place: Vec<_> = found.iter_mut().filter_map(|readings| readings.next().copied()).collect();
        *reading = last_of(&of_place, clock);
    }
    Some(last)
}
