//! Runs a program on requests, block by block, and holds its answers to the Rust's.

use std::io;

use crate::block::{add_line, answers, has_room, requests};
use crate::function::{function_of, functions, number_of, Scale, Source};
use crate::program::Program;

pub fn compare(program: &str, seed: u64) -> io::Result<()> {
    println!("seed {seed}");
    let mut source = Source::new(Scale::Full, seed);
    let program = Program::start(program)?;
    let mut comparison = Comparison { program, block: Vec::new(), counts: [0; COUNTS_LEN] };
    for function in functions() {
        function.ask(&mut source, &mut |request| comparison.ask(request))?;
        comparison.exchange()?;
        let count = comparison.counts[usize::from(function.number())];
        println!("{:02X} {}: {count}", function.number(), function.name());
    }
    comparison.program.end()?;
    println!("compared {} cases, 0 differences", comparison.counts.iter().sum::<usize>());
    Ok(())
}

/// A count for each number of a function.
const COUNTS_LEN: usize = 1 << u8::BITS;

/// The running program, the requests that it has not been sent yet, and how many each function has had.
struct Comparison {
    program: Program,
    block: Vec<u8>,
    counts: [usize; COUNTS_LEN],
}

impl Comparison {
    fn ask(&mut self, request: &[u8]) -> io::Result<()> {
        if !has_room(&self.block, request) {
            self.exchange()?;
        }
        add_line(&mut self.block, request);
        if let Some(number) = number_of(request) {
            self.counts[usize::from(number)] += 1;
        }
        Ok(())
    }

    /// Sends the block, and answers it from the Rust while the program does.
    fn exchange(&mut self) -> io::Result<()> {
        self.program.send(&self.block)?;
        let rust = answers(&self.block)?;
        for (request, rust) in requests(&self.block).zip(rust.split(|byte| *byte == b'\n')) {
            let theirs = self.program.answer(request)?;
            if theirs != rust {
                return Err(io::Error::other(difference(request, rust, theirs)));
            }
        }
        self.block.clear();
        Ok(())
    }
}

fn difference(request: &[u8], rust: &[u8], theirs: &[u8]) -> String {
    let name = function_of(request).map_or("", |function| function.name());
    let [request, rust, theirs] = [request, rust, theirs].map(String::from_utf8_lossy);
    format!("{name} differs\nrequest {request}\nRust    {rust}\nprogram {theirs}")
}
