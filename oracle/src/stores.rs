//! The program `stores`: its files, and what it prints for each. The Rust has no such program.

mod cases;

use std::io::{self, Write};
use std::path::Path;
use std::process::{Command, Stdio};
use std::{fs, iter};

use dali2rust_domain::dali::banks::luminaire_write::Bank1Layout;

use crate::luminaire_write::{planned_stores, Numbers, Wanted};
use crate::rng::Rng;
use cases::{long_files, random_file, stored_cases};

/// What a file tells.
#[derive(Clone)]
struct Told {
    last_offset: u8,
    content_format_id: u16,
    wanted: Wanted,
}

const MARK: &[u8] = b"LWE";
const VERSION: u32 = 1;
const NO_TEXT: u32 = 0xFF;

/// How many bytes each number has, in the order of `number_values`.
const WIDTHS: [usize; 11] = [1, 1, 2, 2, 2, 2, 3, 1, 2, 1, 2];

/// Reads a file, or gives none for a bad one.
fn told(file: &[u8]) -> Option<Told> {
    let mut rest = file.strip_prefix(MARK)?;
    let version = next(&mut rest, 2)?;
    let last_offset = next(&mut rest, 1)? as u8;
    let content_format_id = next(&mut rest, 2)? as u16;
    let mask = next(&mut rest, 2)? as u16;
    let mut values = [0; WIDTHS.len()];
    for (value, width) in values.iter_mut().zip(WIDTHS) {
        *value = next(&mut rest, width)?;
    }
    let index = next(&mut rest, 1)?;
    let length = next(&mut rest, 1)? as usize;
    let sound = version == VERSION && rest.len() == length && (index != NO_TEXT || length == 0);
    let index = (index != NO_TEXT).then_some(index as usize);
    let wanted = Wanted { numbers: Numbers { mask, values }, index, text: rest.to_vec() };
    sound.then_some(Told { last_offset, content_format_id, wanted })
}

/// Takes the next bytes as a number.
fn next(rest: &mut &[u8], width: usize) -> Option<u32> {
    let (bytes, behind) = rest.split_at_checked(width)?;
    *rest = behind;
    Some(bytes.iter().fold(0, |number, byte| number << 8 | u32::from(*byte)))
}

/// What the program prints.
fn printed(file: &[u8]) -> String {
    let Some(told) = told(file) else {
        return "bad file\n".to_owned();
    };
    let layout = Bank1Layout {
        implemented: Some(true),
        content_format_id: Some(told.content_format_id),
        last_offset: Some(told.last_offset),
    };
    match planned_stores(&layout, &told.wanted) {
        Ok(stores) => {
            let lines = stores.iter().map(|(offset, value)| format!("{offset:02X} {value:02X}\n"));
            iter::once(format!("stores {}\n", stores.len())).chain(lines).collect()
        }
        Err(refusal) => format!("refused {}\n", refusal.number()),
    }
}

/// Writes the stored cases with what is printed for each.
pub fn write_cases(dir: &Path) -> io::Result<()> {
    let text: String = stored_cases().iter().map(|(name, file)| block(name, file)).collect();
    fs::write(dir.join("stores.txt"), text)
}

fn block(name: &str, file: &[u8]) -> String {
    let lines: String = printed(file).lines().map(|line| format!("  out {line}\n")).collect();
    format!("{name}\n  in {}\n{lines}", hex(file))
}

fn hex(bytes: &[u8]) -> String {
    bytes.iter().map(|byte| format!("{byte:02X}")).collect()
}

const RANDOM_FILES: usize = 2_000;

/// Runs the program on the stored cases, on long files and on random ones.
pub fn check_program(program: &str, seed: u64) -> io::Result<()> {
    println!("seed {seed}");
    let mut rng = Rng::new(seed);
    let stored = stored_cases().into_iter().map(|(_, file)| file);
    let files = stored.chain(long_files()).chain((0..RANDOM_FILES).map(|_| random_file(&mut rng)));
    let mut count = 0;
    for file in files {
        check(program, &file)?;
        count += 1;
    }
    println!("compared {count} files, 0 differences");
    Ok(())
}

fn check(program: &str, file: &[u8]) -> io::Result<()> {
    let theirs = run(program, file)?;
    let ours = printed(file);
    if theirs == ours.as_bytes() {
        return Ok(());
    }
    let theirs = String::from_utf8_lossy(&theirs);
    Err(io::Error::other(format!("a file differs\ninput {}\nwanted:\n{ours}printed:\n{theirs}", hex(file))))
}

/// What the program prints for the file on its standard input.
fn run(program: &str, file: &[u8]) -> io::Result<Vec<u8>> {
    let mut command = Command::new(program);
    let mut child = command.stdin(Stdio::piped()).stdout(Stdio::piped()).spawn()?;
    if let Some(mut stdin) = child.stdin.take() {
        unless_closed(stdin.write_all(file))?;
    }
    let output = child.wait_with_output()?;
    if !output.status.success() {
        return Err(io::Error::other(format!("the program ended with {} on input {}", output.status, hex(file))));
    }
    Ok(output.stdout)
}

/// A program may stop reading a file once it knows that it is bad.
fn unless_closed(written: io::Result<()>) -> io::Result<()> {
    match written {
        Err(error) if error.kind() == io::ErrorKind::BrokenPipe => Ok(()),
        written => written,
    }
}
