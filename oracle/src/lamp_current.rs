//! Reads bank 1 out by a program, and shows that the lamp current comes in one chunk in the mode for it.

use std::io;

use dali2rust_domain::dali::banks::part251::{BANK_LUMINAIRE_INFO, LAMP_CURRENT_OFFSET};

use crate::layout::ChunkMode;
use crate::line::{Args, Take};
use crate::program::{failure, request, Program};
use crate::read_out::ReadOut;
use crate::rng::Rng;

const STARTING: u8 = 0x40;
const WANTING: u8 = 0x42;
const ACCEPTING: u8 = 0x43;

/// How many read-outs each length has in a mode.
const READ_OUTS: usize = 50;

/// The offsets of the lamp current's two bytes.
const FIRST: u16 = LAMP_CURRENT_OFFSET as u16;
const SECOND: u16 = FIRST + 1;

pub fn lamp_current(program: &str, seed: u64) -> io::Result<()> {
    println!("seed {seed}");
    let mut rng = Rng::new(seed);
    let mut program = Program::start(program)?;
    read_all(&mut program, &mut rng, ChunkMode::LampCurrent)?;
    let parted = read_all(&mut program, &mut rng, ChunkMode::Plain)?;
    program.end()?;
    // Else the budgets would show nothing.
    if parted == 0 {
        return Err(io::Error::other("in plain mode the lamp current is never parted"));
    }
    let count = lengths().count();
    println!("read bank 1 out {count} times in each mode: the lamp current was parted 0 times, in plain mode {parted}");
    Ok(())
}

/// From C0 to 100 hex.
fn lengths() -> impl Iterator<Item = u16> {
    (0xC0..=0x100).flat_map(|length| [length; READ_OUTS])
}

/// A read-out under way.
struct Reading {
    read_out: ReadOut,
    /// The largest of its budgets, and that of its next chunk.
    most: usize,
    budget: u16,
    /// The length of its next chunk.
    chunk: u16,
    done: bool,
    /// Whether a chunk had both bytes of the lamp current.
    whole: bool,
}

/// What is wrong with an answer.
type Checked = Result<(), &'static str>;

impl Reading {
    fn started(read_out: ReadOut, most: usize) -> Self {
        Self { read_out, most, budget: 0, chunk: 0, done: false, whole: false }
    }

    fn wanting(&self) -> Vec<u8> {
        request(WANTING, &(self.read_out, self.budget))
    }

    fn accepting(&self) -> Vec<u8> {
        let [chunk, buffer] = [self.chunk, self.read_out.length].map(|length| vec![0_u8; length.into()]);
        request(ACCEPTING, &(self.read_out, self.budget, chunk, buffer))
    }

    /// One that is done has read all bytes, and in the mode for it the lamp current in one chunk, if it has both bytes.
    fn go_on_to(&mut self, wanted: Option<u16>) -> Checked {
        let ReadOut { length, next, mode, .. } = self.read_out;
        self.done = wanted.is_none();
        self.chunk = wanted.unwrap_or(0);
        if self.done && next != length {
            return Err("it is done without all bytes");
        }
        if self.done && !self.whole && mode == ChunkMode::LampCurrent && SECOND < length {
            return Err("no chunk had both bytes of the lamp current");
        }
        Ok(())
    }

    fn advance(&mut self, to: ReadOut) -> Checked {
        let from = self.read_out;
        if to != (ReadOut { next: from.next + self.chunk, ..from }) {
            return Err("another read-out is handed back than the one behind the chunk");
        }
        self.read_out = to;
        self.whole |= from.next <= FIRST && SECOND < to.next;
        if to.mode == ChunkMode::LampCurrent && self.parts_lamp_current() {
            return Err("the chunk parts the lamp current");
        }
        Ok(())
    }

    /// Only the first of its bytes was read, and the second will be.
    fn parts_lamp_current(&self) -> bool {
        self.read_out.next == SECOND && SECOND < self.read_out.length
    }
}

/// Reads every one to its end, and counts the chunks that part the lamp current.
fn read_all(program: &mut Program, rng: &mut Rng, mode: ChunkMode) -> io::Result<usize> {
    let mut readings = started(program, rng, mode)?;
    let mut parted = 0;
    while !readings.is_empty() {
        read_on(program, rng, &mut readings)?;
        parted += readings.iter().filter(|reading| reading.parts_lamp_current()).count();
    }
    Ok(parted)
}

fn started(program: &mut Program, rng: &mut Rng, mode: ChunkMode) -> io::Result<Vec<Reading>> {
    let starts: Vec<_> = lengths().map(|length| ReadOut::from_start(BANK_LUMINAIRE_INFO, length, mode)).collect();
    let asked: Vec<_> = starts.iter().map(|start| request(STARTING, &(start.bank, start.length, mode))).collect();
    let mut readings = Vec::new();
    ask_each(program, &asked, |place, read_out| {
        readings.push(Reading::started(read_out, rng.one_of(&[1, 2, 4, 12, 60, 300])));
        (read_out == starts[place]).then_some(()).ok_or("another read-out is started")
    })?;
    Ok(readings)
}

/// Reads a chunk of each, and drops those that are done.
fn read_on(program: &mut Program, rng: &mut Rng, readings: &mut Vec<Reading>) -> io::Result<()> {
    for reading in readings.iter_mut() {
        reading.budget = 1 + rng.below(reading.most) as u16;
    }
    let asked: Vec<_> = readings.iter().map(Reading::wanting).collect();
    ask_each(program, &asked, |place, wanted| readings[place].go_on_to(wanted))?;
    readings.retain(|reading| !reading.done);
    let asked: Vec<_> = readings.iter().map(Reading::accepting).collect();
    ask_each(program, &asked, |place, to| readings[place].advance(to))
}

/// Hands on each answer, up to what is lent, with its place. The first that is a refusal or wrong ends it.
fn ask_each<R: Take>(
    program: &mut Program,
    asked: &[Vec<u8>],
    mut hand_on: impl FnMut(usize, R) -> Checked,
) -> io::Result<()> {
    let answers = program.answers(asked)?;
    for (place, (request, answer)) in asked.iter().zip(&answers).enumerate() {
        let mut args = Args::new(answer);
        let accepted = args.take() == Some(0_u8);
        let value = args.take().filter(|_| accepted).ok_or("it is refused");
        value.and_then(|value| hand_on(place, value)).map_err(|what| failure(what, request, answer))?;
    }
    Ok(())
}
