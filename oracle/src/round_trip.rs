//! The tests of `luminaire_write_round_trip.rs`, with a program's functions in the place of the Rust's.

use std::io;

use dali2rust_domain::dali::banks::luminaire_write::{FieldKind, LuminaireField, LUMINAIRE_FIELDS};
use dali2rust_domain::dali::banks::part251::{LuminaireFormat, CONTENT_FORMAT_ID_OFFSET};

use crate::line::{Args, Put, Take};
use crate::luminaire_write::{index_of, Wanted};
use crate::memory_bank_parser::Shown;
use crate::part251::FORMATS;
use crate::program::{failure, request, Program};

const V5: LuminaireFormat = LuminaireFormat::V5;

const SAMPLES: [u64; 16] = [0, 1, 3, 5, 7, 24, 53, 90, 100, 230, 480, 2_700, 6_500, 17_000, 0xFFFE, 0x00FF_FFFE];

const SHORT_TEXT: &str = "warm white";

const PRINTABLE_60: &str = "ABCDEFGHIJKLMNOPQRSTUVWXYZabcdefghijklmnopqrstuvwxyz0123456 ";

type Test = fn(&mut Ported) -> io::Result<()>;

/// The tests under their own names.
const TESTS: [(&str, Test); 3] = [
    ("the_parser_fills_exactly_the_fields_the_write_table_puts_in_each_format", fills_the_fields_of_each_format),
    ("every_number_the_patch_accepts_reads_back_as_the_same_value", numbers_read_back),
    ("every_text_the_patch_accepts_reads_back_as_written", texts_read_back),
];

/// Runs every test, and says which failed.
pub fn round_trip(program: &str) -> io::Result<()> {
    let mut ported = Ported { program: Program::start(program)? };
    let mut failed = 0;
    for (name, test) in TESTS {
        match test(&mut ported) {
            Ok(()) => println!("{name}: ok"),
            Err(error) => {
                println!("{name}: FAILED, {error}");
                failed += 1;
            }
        }
    }
    if failed > 0 {
        return Err(io::Error::other(format!("{failed} of {} tests failed", TESTS.len())));
    }
    ported.program.end()
}

fn fills_the_fields_of_each_format(ported: &mut Ported) -> io::Result<()> {
    for format in FORMATS {
        let bank = ported.whole_bank_declaring(format)?;
        let record = ported.parse_bank1_luminaire(&bank)?;
        for (field, shown) in LUMINAIRE_FIELDS.iter().zip(record) {
            let filled = match shown {
                Shown::Id(_) => continue,
                Shown::Value(value) => value.is_some(),
                Shown::Text(text) => text.bytes.is_some(),
            };
            let id = format.content_format_id();
            let in_format = ported.in_format(field, format)?;
            assure(filled == in_format, || format!("{} under content format {id}", field.name))?;
        }
    }
    Ok(())
}

fn numbers_read_back(ported: &mut Ported) -> io::Result<()> {
    for field in &LUMINAIRE_FIELDS {
        let FieldKind::Number { .. } = field.kind else { continue };
        let mut accepted = Vec::new();
        for value in SAMPLES {
            if ported.accepts_number(field, value, V5)? {
                accepted.push(value as u32);
            }
        }
        assure(accepted.len() > 1, || format!("{} is tried with too few values", field.name))?;
        for value in accepted {
            let shown = ported.shown_after(field, &Wanted::number(field, value))?;
            let reads_back = matches!(shown, Shown::Value(Some(shown)) if shown.value == Some(value));
            assure(reads_back, || format!("{} = {value}", field.name))?;
        }
    }
    Ok(())
}

fn texts_read_back(ported: &mut Ported) -> io::Result<()> {
    for field in &LUMINAIRE_FIELDS {
        let FieldKind::Text(_) = field.kind else { continue };
        let len = usize::from(field.len);
        let short = &SHORT_TEXT[..len.min(SHORT_TEXT.len())];
        for text in ["x", short, &PRINTABLE_60[..len]] {
            assure(ported.accepts_text(field, text)?, || format!("{} refuses {text:?}", field.name))?;
            let shown = ported.shown_after(field, &Wanted::text(index_of(field), text.as_bytes()))?;
            let reads_back = matches!(shown, Shown::Text(shown) if shown.shows_whole(text.as_bytes()));
            assure(reads_back, || format!("{} = {text:?}", field.name))?;
        }
    }
    Ok(())
}

fn assure(holds: bool, what: impl FnOnce() -> String) -> io::Result<()> {
    if holds {
        return Ok(());
    }
    Err(io::Error::other(what()))
}

/// The record, by field.
struct Record(Vec<Shown>);

impl Take for Record {
    fn take(args: &mut Args) -> Option<Self> {
        let mut shown = |field: &LuminaireField| match field.kind {
            FieldKind::LayoutId => args.take().map(Shown::Id),
            FieldKind::Number { .. } => args.take().map(Shown::Value),
            FieldKind::Text(_) => args.take().map(Shown::Text),
        };
        LUMINAIRE_FIELDS.iter().map(&mut shown).collect::<Option<_>>().map(Self)
    }
}

/// The number of writes, then room for the field index of each, for its length, and for the bytes of all: more than one
/// field takes.
type Writes = (usize, [u8; 2], [u8; 2], [u8; 64]);

/// The functions of the program.
struct Ported {
    program: Program,
}

impl Ported {
    fn ask<R: Take>(&mut self, number: u8, args: impl Put) -> io::Result<R> {
        let request = request(number, &args);
        let answer = self.program.answers(std::slice::from_ref(&request))?.concat();
        let mut args = Args::new(&answer);
        let taken = args.take().filter(|_| args.is_empty());
        taken.ok_or_else(|| failure("no such answer", &request, &answer))
    }

    fn in_format(&mut self, field: &LuminaireField, format: LuminaireFormat) -> io::Result<bool> {
        self.ask(0x33, (*field, format))
    }

    fn accepts_number(&mut self, field: &LuminaireField, value: u64, format: LuminaireFormat) -> io::Result<bool> {
        self.ask(0x35, (*field, value, format))
    }

    fn accepts_text(&mut self, field: &LuminaireField, text: &str) -> io::Result<bool> {
        self.ask(0x36, (*field, text.as_bytes().to_vec()))
    }

    fn planned_writes(&mut self, wanted: &Wanted) -> io::Result<Writes> {
        self.ask(0x39, (wanted.clone(), vec![0u8; 2], vec![0u8; 2], vec![0u8; 64]))
    }

    fn parse_bank1_luminaire(&mut self, bank: &[u8]) -> io::Result<Vec<Shown>> {
        let record: Record = self.ask(0x7C, (0u16, bank.to_vec()))?;
        Ok(record.0)
    }

    fn whole_bank_declaring(&mut self, format: LuminaireFormat) -> io::Result<Vec<u8>> {
        let last: u8 = self.ask(0x22, V5)?;
        let id: u16 = self.ask(0x21, format)?;
        let mut bank = vec![0; usize::from(last) + 1];
        bank[0] = last;
        let at = usize::from(CONTENT_FORMAT_ID_OFFSET);
        bank[at..at + 2].copy_from_slice(&id.to_be_bytes());
        Ok(bank)
    }

    /// What the record has of the field once the planned writes are in the bank.
    fn shown_after(&mut self, field: &LuminaireField, wanted: &Wanted) -> io::Result<Shown> {
        let mut bank = self.whole_bank_declaring(V5)?;
        let writes = self.planned_writes(wanted)?;
        let written = write(&mut bank, &writes).is_some();
        assure(written, || format!("the writes of {} are not in the bank", field.name))?;
        let mut record = self.parse_bank1_luminaire(&bank)?;
        Ok(record.swap_remove(index_of(field)))
    }
}

/// None where a write has no field or goes past the bank's end.
fn write(bank: &mut [u8], (count, indices, lengths, bytes): &Writes) -> Option<()> {
    let mut rest = &bytes[..];
    for (index, length) in indices.get(..*count)?.iter().zip(lengths) {
        let start = usize::from(LUMINAIRE_FIELDS.get(usize::from(*index))?.offset);
        let (written, behind) = rest.split_at_checked(usize::from(*length))?;
        bank.get_mut(start..start + written.len())?.copy_from_slice(written);
        rest = behind;
    }
    Some(())
}
