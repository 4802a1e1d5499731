//! A running program that answers requests.

use std::io::{self, BufRead, BufReader, Read, Write};
use std::process::{Child, ChildStdin, ChildStdout, Command, Stdio};

use crate::block::{add_line, fill_up, has_room, requests, BLOCK_LEN};
use crate::line::{Line, Put};

pub struct Program {
    child: Child,
    stdin: ChildStdin,
    stdout: BufReader<ChildStdout>,
    line: Vec<u8>,
}

impl Program {
    pub fn start(program: &str) -> io::Result<Self> {
        let mut command = Command::new(program);
        command.stdin(Stdio::piped()).stdout(Stdio::piped());
        let mut child = command.spawn().map_err(|error| failed(program, error))?;
        let (Some(stdin), Some(stdout)) = (child.stdin.take(), child.stdout.take()) else {
            return Err(io::Error::other("the program has no pipes"));
        };
        let stdout = BufReader::with_capacity(BLOCK_LEN, stdout);
        Ok(Self { child, stdin, stdout, line: Vec::new() })
    }

    /// Sends the requests as a block. The program reads a block whole before it answers, so neither side waits on a
    /// full pipe that the other does not read, if every answer is read before the next block is sent.
    pub fn send(&mut self, requests: &[u8]) -> io::Result<()> {
        let mut block = requests.to_vec();
        fill_up(&mut block);
        self.stdin.write_all(&block).map_err(|error| failed("the program stopped reading", error))
    }

    /// The next answer, which is that to this request.
    pub fn answer(&mut self, request: &[u8]) -> io::Result<&[u8]> {
        self.line.clear();
        self.stdout.read_until(b'\n', &mut self.line)?;
        self.line.strip_suffix(b"\n").ok_or_else(|| {
            let request = String::from_utf8_lossy(request);
            io::Error::other(format!("the program ended before its answer to {request}"))
        })
    }

    /// The answers to any number of requests.
    pub fn answers(&mut self, asked: &[Vec<u8>]) -> io::Result<Vec<Vec<u8>>> {
        let mut answers = Vec::new();
        while answers.len() < asked.len() {
            let block = first_block(&asked[answers.len()..]);
            self.send(&block)?;
            for request in requests(&block) {
                answers.push(self.answer(request)?.to_vec());
            }
        }
        Ok(answers)
    }

    pub fn end(mut self) -> io::Result<()> {
        drop(self.stdin);
        let mut surplus = Vec::new();
        self.stdout.read_to_end(&mut surplus)?;
        if !surplus.is_empty() {
            return Err(io::Error::other("the program wrote more than its answers"));
        }
        let status = self.child.wait()?;
        if !status.success() {
            return Err(io::Error::other(format!("the program ended with {status}")));
        }
        Ok(())
    }
}

/// A request of a function.
pub fn request(number: u8, args: &impl Put) -> Vec<u8> {
    let mut line = Line::default();
    line.put(&number);
    line.put(args);
    line.text().to_vec()
}

pub fn failure(what: &str, request: &[u8], answer: &[u8]) -> io::Error {
    let [request, answer] = [request, answer].map(String::from_utf8_lossy);
    io::Error::other(format!("{what}\nrequest {request}\nanswer  {answer}"))
}

/// As many of the requests as a block has room for.
fn first_block(requests: &[Vec<u8>]) -> Vec<u8> {
    let mut block = Vec::with_capacity(BLOCK_LEN);
    for request in requests {
        if !has_room(&block, request) {
            break;
        }
        add_line(&mut block, request);
    }
    block
}

fn failed(what: &str, error: io::Error) -> io::Error {
    io::Error::new(error.kind(), format!("{what}: {error}"))
}
