//! Compares a program with the Rust that it was ported from; `README.md` has the requests and the commands.

mod banks;
mod block;
mod bus_unit;
mod claim;
mod compare;
mod cut_plan;
mod function;
mod identity;
mod lamp_current;
mod layout;
mod line;
mod luminaire_write;
mod memory_bank_parser;
mod part251;
mod program;
mod read_out;
mod refusal;
mod rng;
mod round_trip;
mod stores;

use std::io::{self, Write};
use std::path::Path;
use std::process::ExitCode;
use std::time::{SystemTime, UNIX_EPOCH};
use std::{env, fs};

use block::{add_line, answers, fill_up, has_room, read_block};
use claim::claim;
use compare::compare;
use function::{functions, Scale, Source};
use lamp_current::lamp_current;
use round_trip::round_trip;

const USAGE: &str = "usage: oracle compare PROGRAM [SEED] | oracle claim PROGRAM [SEED] \
    | oracle lamp-current PROGRAM [SEED] | oracle round-trip PROGRAM | oracle list DIR | oracle answer \
    | oracle stores PROGRAM [SEED] | oracle files DIR";

/// The list is the same every time.
const LIST_SEED: u64 = 251;

fn main() -> ExitCode {
    match run() {
        Ok(()) => ExitCode::SUCCESS,
        Err(error) => {
            eprintln!("oracle: {error}");
            ExitCode::FAILURE
        }
    }
}

fn run() -> io::Result<()> {
    let args: Vec<String> = env::args().skip(1).collect();
    let args: Vec<&str> = args.iter().map(String::as_str).collect();
    match args[..] {
        ["compare", program] => compare(program, seed_of_the_clock()),
        ["compare", program, seed] => compare(program, seed.parse().map_err(io::Error::other)?),
        ["claim", program] => claim(program, seed_of_the_clock()),
        ["claim", program, seed] => claim(program, seed.parse().map_err(io::Error::other)?),
        ["lamp-current", program] => lamp_current(program, seed_of_the_clock()),
        ["lamp-current", program, seed] => lamp_current(program, seed.parse().map_err(io::Error::other)?),
        ["round-trip", program] => round_trip(program),
        ["list", dir] => list(Path::new(dir)),
        ["answer"] => answer_input(),
        ["stores", program] => stores::check_program(program, seed_of_the_clock()),
        ["stores", program, seed] => stores::check_program(program, seed.parse().map_err(io::Error::other)?),
        ["files", dir] => stores::write_cases(Path::new(dir)),
        _ => Err(io::Error::other(USAGE)),
    }
}

fn seed_of_the_clock() -> u64 {
    let since = SystemTime::now().duration_since(UNIX_EPOCH);
    since.map_or(0, |since| since.as_nanos() as u64)
}

fn list(dir: &Path) -> io::Result<()> {
    let mut source = Source::new(Scale::List, LIST_SEED);
    let mut blocks = Vec::new();
    let mut block = Vec::new();
    for function in functions() {
        function.ask(&mut source, &mut |request| {
            if !has_room(&block, request) {
                fill_up(&mut block);
                blocks.append(&mut block);
            }
            add_line(&mut block, request);
            Ok(())
        })?;
    }
    blocks.append(&mut block);
    fs::write(dir.join("stdin"), &blocks)?;
    fs::write(dir.join("stdout"), answers(&blocks)?)
}

/// Answers block by block, as `compare` asks.
fn answer_input() -> io::Result<()> {
    let mut input = io::stdin().lock();
    let mut output = io::stdout().lock();
    loop {
        let block = read_block(&mut input)?;
        if block.is_empty() {
            return Ok(());
        }
        output.write_all(&answers(&block)?)?;
        output.flush()?;
    }
}
