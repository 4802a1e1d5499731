//! Holds a program to the claim of 01, "A cut plan, read back", in either mode: random plans, each at every cut, each
//! with a list of calls.

mod cases;
mod conclusions;

use std::io;

use crate::layout::MODES;
use crate::program::{failure, request, Program};
use crate::rng::Rng;
use cases::{random_plan, Case};
use conclusions::{failed, ReadBack};

/// In each mode.
const ROUNDS: usize = 1_000;

/// How many plans a round has.
const PLANS: usize = 50;

/// The number of `cut_plan::read_back`.
const READ_BACK: u8 = 0x80;

pub fn claim(program: &str, seed: u64) -> io::Result<()> {
    println!("seed {seed}");
    let mut rng = Rng::new(seed);
    let mut program = Program::start(program)?;
    let mut counts = Counts::default();
    for mode in (0..ROUNDS).flat_map(|_| MODES) {
        let mut cases: Vec<_> = (0..PLANS).flat_map(|_| Case::at_every_cut(&random_plan(&mut rng), mode)).collect();
        ask_each(&mut program, &mut cases, |case, back| {
            case.set_calls(&mut rng, back.bank);
            Ok(())
        })?;
        ask_each(&mut program, &mut cases, |case, back| {
            counts.add(case, &back);
            check(case, &back)
        })?;
    }
    program.end()?;
    let Counts { cuts, calls, done } = counts;
    let plans = ROUNDS * PLANS;
    println!("checked {plans} plans in each mode, {cuts} cuts, {calls} calls and {done} read-outs done, 0 failures");
    Ok(())
}

#[derive(Default)]
struct Counts {
    cuts: usize,
    calls: usize,
    done: usize,
}

impl Counts {
    fn add(&mut self, case: &Case, back: &ReadBack) {
        self.cuts += 1;
        self.calls += case.calls.len();
        self.done += usize::from(back.is_done());
    }
}

/// Asks the program each case, and hands on what it read back.
fn ask_each(
    program: &mut Program,
    cases: &mut [Case],
    mut hand_on: impl FnMut(&mut Case, ReadBack) -> Result<(), String>,
) -> io::Result<()> {
    let requests: Vec<_> = cases.iter().map(|case| request(READ_BACK, &case.cut_plan())).collect();
    let answers = program.answers(&requests)?;
    for ((case, request), answer) in cases.iter_mut().zip(&requests).zip(&answers) {
        let back = ReadBack::of(case, answer).ok_or("an accepted plan has no such answer".to_owned());
        back.and_then(|back| hand_on(case, back)).map_err(|what| failure(&what, request, answer))?;
    }
    Ok(())
}

fn check(case: &Case, back: &ReadBack) -> Result<(), String> {
    let failed = failed(case, back);
    if failed.is_empty() {
        return Ok(());
    }
    Err(format!("not so: {}", failed.join("; ")))
}
