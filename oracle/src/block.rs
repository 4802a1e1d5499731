//! Blocks of the stream: whole requests, each a line, and empty lines to the end of the block.

use std::io::{self, Read};

use crate::function::answer;
use crate::line::Line;

pub const BLOCK_LEN: usize = 65_536;

/// Whether a block of this length has room for the request and the end of its line.
pub fn has_room(block: &[u8], request: &[u8]) -> bool {
    block.len() + request.len() < BLOCK_LEN
}

pub fn add_line(block: &mut Vec<u8>, line: &[u8]) {
    block.extend_from_slice(line);
    block.push(b'\n');
}

/// Fills the block up with empty lines.
pub fn fill_up(block: &mut Vec<u8>) {
    block.resize(BLOCK_LEN, b'\n');
}

pub fn requests(block: &[u8]) -> impl Iterator<Item = &[u8]> {
    let lines = block.split(|byte| *byte == b'\n');
    lines.filter(|line| !line.is_empty())
}

/// Reads the next block: shorter than the others, or empty, only at the end of the input.
pub fn read_block(input: &mut impl Read) -> io::Result<Vec<u8>> {
    let mut block = Vec::with_capacity(BLOCK_LEN);
    input.take(BLOCK_LEN as u64).read_to_end(&mut block)?;
    Ok(block)
}

/// The Rust's answers to a block or several, a line each.
pub fn answers(block: &[u8]) -> io::Result<Vec<u8>> {
    let mut answers = Vec::new();
    let mut line = Line::default();
    for request in requests(block) {
        line.clear();
        answer(request, &mut line)?;
        add_line(&mut answers, line.text());
    }
    Ok(answers)
}
