//! Cases of a text: a region among bytes, and what is made of the bytes of one.

use std::iter;

use dali2rust_domain::dali::banks::part251::{TextRegion, FREE_USE, LUMINAIRE_COLOUR, LUMINAIRE_IDENTIFICATION};

use super::{Limit, LIMITS};
use crate::function::{Cases, Scale, Source};
use crate::luminaire_write::{places, printable};
use crate::part251::REGIONS;
use crate::rng::Rng;

type RegionCase = (u16, TextRegion, Vec<u8>);
pub type BankTextCase = (TextRegion, Vec<u8>);
pub type TextCase = (u16, TextRegion, Limit, Vec<u8>);
pub type EscapeCase = (Limit, Vec<u8>);

fn region_cases(source: &mut Source) -> Vec<RegionCase> {
    let telling = vec![LUMINAIRE_COLOUR, LUMINAIRE_IDENTIFICATION, FREE_USE];
    let regions = source.scale.pick(REGIONS.to_vec(), telling);
    let empty = TextRegion { len: 0, ..LUMINAIRE_COLOUR };
    let mut cases = Vec::new();
    for region in regions.iter().chain([&empty]) {
        for (start, length) in stretches(source.scale, *region) {
            cases.push(with_text(&mut source.rng, *region, start, length));
        }
    }
    for region in regions {
        texts_with_00(source, region, &mut cases);
    }
    cases
}

/// Start offsets, each with how many bytes are given from there on: the region is whole, or lacks some or all bytes.
fn stretches(scale: Scale, region: TextRegion) -> Vec<(u16, usize)> {
    let (offset, len) = (u16::from(region.offset), usize::from(region.len));
    let mut every = Vec::new();
    for start in (0..=40).chain([offset - 1, offset, offset + 1, u16::MAX]) {
        let whole = usize::from(offset.saturating_sub(start)) + len;
        every.extend((whole.saturating_sub(2)..=whole + 2).map(|length| (start, length)));
    }
    let telling = vec![(offset, len + 1), (offset - 1, len), (offset + 1, len)];
    scale.pick(every, telling)
}

/// So many bytes from the start offset on, with a random text in the region.
fn with_text(rng: &mut Rng, region: TextRegion, start: u16, length: usize) -> RegionCase {
    let before = usize::from(u16::from(region.offset).saturating_sub(start));
    let mut bytes = rng.bytes(before);
    bytes.extend(random_text(rng, usize::from(region.len)));
    bytes.resize(length, b'A');
    (start, region, bytes)
}

/// Texts that fill the region, with 00 at any place.
fn texts_with_00(source: &mut Source, region: TextRegion, cases: &mut Vec<RegionCase>) {
    let len = usize::from(region.len);
    let befores = source.scale.pick(vec![0, 1, region.offset], vec![0]);
    for place in places(source.scale, len) {
        for before in &befores {
            let first = usize::from(*before);
            let start = u16::from(region.offset - before);
            let mut case = with_text(&mut source.rng, region, start, first + len);
            case.2[first + place] = 0;
            cases.push(case);
        }
    }
}

fn random_region(source: &mut Source) -> RegionCase {
    let rng = &mut source.rng;
    let region = match rng.below(2) {
        0 => rng.one_of(&REGIONS),
        _ => TextRegion { offset: rng.number() as u8, len: random_length(rng) },
    };
    let offset = u16::from(region.offset);
    let start = match rng.below(16) {
        0 => rng.number() as u16,
        1 => offset + 1 + rng.below(3) as u16,
        _ => offset.saturating_sub(rng.below(41) as u16),
    };
    let whole = usize::from(offset.saturating_sub(start)) + usize::from(region.len);
    let length = match rng.below(8) {
        0 => rng.below(whole + 1),
        _ => whole + rng.below(3),
    };
    let (start, region, mut bytes) = with_text(rng, region, start, length);
    if rng.below(2) == 0 && length > 0 {
        bytes[rng.below(length)] = 0;
    }
    (start, region, bytes)
}

/// Mostly that of a short text.
fn random_length(rng: &mut Rng) -> u8 {
    match rng.below(16) {
        0 => rng.number() as u8,
        1 => 0,
        _ => rng.below(66) as u8,
    }
}

pub fn bank_text_cases(source: &mut Source) -> Vec<BankTextCase> {
    let cases = region_cases(source);
    cases.into_iter().map(|case| in_bank(&mut source.rng, case)).collect()
}

pub fn random_bank_text(source: &mut Source) -> BankTextCase {
    let case = random_region(source);
    in_bank(&mut source.rng, case)
}

/// The bank from its first byte on, up to as many before the start offset as a bank has.
fn in_bank(rng: &mut Rng, (start, region, bytes): RegionCase) -> BankTextCase {
    let before = rng.bytes(usize::from(start.min(256)));
    (region, [before, bytes].concat())
}

pub fn text_cases(source: &mut Source) -> Vec<TextCase> {
    let in_limits = |(start, region, bytes): RegionCase| LIMITS.map(|limit| (start, region, limit, bytes.clone()));
    let mut cases: Vec<_> = region_cases(source).into_iter().flat_map(in_limits).collect();
    cases.extend(escape_cases(source).into_iter().map(in_region));
    cases
}

/// The text in a region of its own length, which is given from its first byte on.
fn in_region((limit, raw): EscapeCase) -> TextCase {
    let region = TextRegion { len: raw.len() as u8, ..LUMINAIRE_COLOUR };
    (region.offset.into(), region, limit, raw)
}

pub fn random_text_case(source: &mut Source) -> TextCase {
    let (start, region, bytes) = random_region(source);
    (start, region, source.rng.one_of(&LIMITS), bytes)
}

/// The first and last letters of two, three and four bytes, and those around the gap, behind a plain one.
const LETTERS: [&str; 9] =
    ["A", "\u{80}", "\u{7FF}", "\u{800}", "\u{D7FF}", "\u{E000}", "\u{FFFF}", "\u{10000}", "\u{10FFFF}"];

/// Bytes that are no letter: single ones, and sequences that are cut, overlong, of half a pair or past the last letter.
const NO_LETTERS: [&[u8]; 18] = [
    &[0x80],
    &[0xBF],
    &[0xFF],
    &[0xC3],
    &[0xE2, 0x82],
    &[0xF0, 0x9F],
    &[0xF0, 0x9F, 0x98],
    &[0xC0, 0x80],
    &[0xC1, 0xBF],
    &[0xE0, 0x80, 0x80],
    &[0xE0, 0x9F, 0xBF],
    &[0xF0, 0x80, 0x80, 0x80],
    &[0xF0, 0x8F, 0xBF, 0xBF],
    &[0xED, 0xA0, 0x80],
    &[0xED, 0xBF, 0xBF],
    &[0xF4, 0x90, 0x80, 0x80],
    &[0xF5, 0x80, 0x80, 0x80],
    &[0xFE, 0x80],
];

pub fn escape_cases(source: &mut Source) -> Vec<EscapeCase> {
    let mut cases = vec![(Limit::Of32, vec![]), (Limit::Of64, vec![]), (Limit::Of32, vec![0xC3, 0xA9, 0x80])];
    cases.extend(sequences().map(|sequence| (Limit::Of32, sequence.to_vec())));
    for limit in LIMITS {
        escapes_near_the_limit(source, limit, &mut cases);
        foreign_bytes_only(source.scale, limit, &mut cases);
    }
    cases
}

fn sequences() -> impl Iterator<Item = &'static [u8]> {
    LETTERS.into_iter().map(str::as_bytes).chain(NO_LETTERS)
}

/// Plain bytes that leave little room or none and a sequence or none, in either order, then another plain byte or none.
fn escapes_near_the_limit(source: &mut Source, limit: Limit, cases: &mut Vec<EscapeCase>) {
    let own = match limit {
        Limit::Of32 => 27..=33,
        Limit::Of64 => 59..=65,
    };
    let lengths: Vec<usize> = source.scale.pick((27..=33).chain(59..=65).collect(), own.collect());
    let telling = vec![&b""[..], "é".as_bytes(), "€".as_bytes(), "😀".as_bytes(), &[0x80]];
    let sequences = source.scale.pick(sequences().chain([&b""[..]]).collect(), telling);
    for length in lengths {
        for sequence in &sequences {
            for behind in [&b""[..], b"A"] {
                let text = printable(&mut source.rng, length);
                cases.push((limit, [&text, *sequence, behind].concat()));
                cases.push((limit, [*sequence, &text, behind].concat()));
            }
        }
    }
}

/// Each of them becomes four bytes: up to more than there is room for, or around that.
fn foreign_bytes_only(scale: Scale, limit: Limit, cases: &mut Vec<EscapeCase>) {
    let own = match limit {
        Limit::Of32 => 7..=9,
        Limit::Of64 => 15..=17,
    };
    let counts: Vec<usize> = scale.pick((1..=24).collect(), own.collect());
    cases.extend(counts.into_iter().map(|count| (limit, vec![0xFF; count])));
}

/// Each sequence of up to two bytes; and each of three and four that starts as a letter of such may and goes on with
/// bytes around the edges, alone and behind up to four plain letters.
pub fn every_sequence() -> Cases<EscapeCase> {
    let bytes = || 0..=u8::MAX;
    let pairs = bytes().flat_map(move |first| bytes().map(move |second| vec![first, second]));
    let short = iter::once(vec![]).chain(bytes().map(|byte| vec![byte])).chain(pairs);
    let leads: Vec<Vec<u8>> = (0xE0..=0xF4).map(|lead| vec![lead]).collect();
    let triples = continued(&continued(&leads));
    let quadruples = continued(&triples);
    let long = triples.into_iter().chain(quadruples);
    let behind = |sequence: Vec<u8>| (0..=4).map(move |letters| [&b"ABCD"[..letters], &sequence].concat());
    let sequences = short.chain(long.flat_map(behind));
    Box::new(sequences.flat_map(|sequence| LIMITS.map(|limit| (limit, sequence.clone()))))
}

/// Bytes around the edges of those that may continue a letter, and a plain one.
const CONTINUATIONS: [u8; 9] = [0x41, 0x7F, 0x80, 0x8F, 0x90, 0x9F, 0xA0, 0xBF, 0xC0];

/// Each sequence with each of those bytes behind it.
fn continued(sequences: &[Vec<u8>]) -> Vec<Vec<u8>> {
    let each = |sequence: &Vec<u8>| CONTINUATIONS.map(|byte| [&sequence[..], &[byte]].concat());
    sequences.iter().flat_map(each).collect()
}

pub fn random_escape(source: &mut Source) -> EscapeCase {
    let rng = &mut source.rng;
    let length = rng.below(71);
    (rng.one_of(&LIMITS), random_text(rng, length))
}

/// A text of one kind of bytes or of all kinds. Its end may cut a letter.
pub fn random_text(rng: &mut Rng, length: usize) -> Vec<u8> {
    let kind = rng.below(5);
    let mut text = Vec::new();
    while text.len() < length {
        let kind = if kind < 4 { kind } else { rng.below(4) };
        text.extend(random_sequence(rng, kind));
    }
    text.truncate(length);
    text
}

fn random_sequence(rng: &mut Rng, kind: usize) -> Vec<u8> {
    match kind {
        0 => printable(rng, 1),
        1 => rng.bytes(1),
        2 => random_letter(rng).to_string().into_bytes(),
        _ => rng.one_of(&NO_LETTERS).to_vec(),
    }
}

/// A letter of two bytes, three or four.
fn random_letter(rng: &mut Rng) -> char {
    let ranges = [(0x80, 0x800), (0x800, 0xD800), (0xE000, 0x1_0000), (0x1_0000, 0x11_0000)];
    let (first, end) = rng.one_of(&ranges);
    let letter = first + rng.below(end - first);
    char::from_u32(letter as u32).unwrap_or_default()
}
