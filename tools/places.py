#!/usr/bin/env python3
"""Counts the places of the eight points of docs/DESIGN-PASS.md in the sources.

Use: python3 tools/places.py [--list] [ROOT]

ROOT is the tree whose crates/*/src are read (the current folder, if none is given), and --list shows each place. A pattern is
matched on the text of a file in which each run of blanks is one blank, so that it finds what stands on several lines too."""
import glob
import re
import sys

POINTS = [
    ("1", "own enums of the shape of Option or Result", r"enum (?:Option|Result)[A-Z]\w*"),
    ("1", "a yes or no, or a mask, with a value beside it", r"pub (?:\w+: bool|patch_mask: u16),"),
    ("1", "a refusal where there is one, and else none", r"-> (?:Option<Refusal>|OptionRefusal)"),
    ("1", "a number that stands for a case", r"const (?:WANTING|NO_TEXT)\b|fn (?:refused_number|wanted_number|chunk_of)\(|"
          r"fn (?:first_not_printable|sequence_len|followed|push)\([^)]*\) -> usize"),
    ("2", "functions for an option, one for each type", r"fn (?:put_)?option_\w+\("),
    ("2", "functions that differ in a type or a size",
          r"fn (?:shown_u8|shown_u16|u8_field|u16_field|u16_at|parse_light_output|text32|store|read_full|write_full|copy|copy_u16s|"
          r"u16_slice_at|slice_at|behind_slice|behind_u16_slice|put_slice|put_u16s|buffer|u16_buffer|\w+_map)(?:<[^>]*>)?\((?!bank|plan)"),
    ("3", "loops with a count or a condition", r"(?<=[;{}] )(?:while|loop)\b"),
    ("4", "equality, copying and smallest of two by hand", r"fn (?:is_same|copy|copy_in|copy_u16s|smaller|is_between)(?:<[^>]*>)?\("),
    ("4", "an enum from a number and back by hand",
          r"fn (?:from_content_format_id|content_format_id|from_byte|raw|(?:rule|text_field|width|format|gear|limit)_at|"
          r"put_(?:width|rule|text_field|gear|limit|format))\(|match u8::take\(request\) \{"),
    ("4", "numbers printed by hand", r"fn (?:put_decimal|decimal_digit|hex_digits|hex_digit|glyph|digit)\("),
    ("5", "bytes with their start offset", r"bytes: &\[u8\], start_offset: u16"),
    ("5", "a text with how much of it is filled", r"text: &mut \[u8\], n: usize"),
    ("5", "a request with a place in it", r"request: &\[u8\], at: usize"),
    ("5", "numbers, text field and text", r"numbers: LuminaireNumbers, text_field: [\w<>]+, text: &\[u8\]"),
    ("5", "two slices of stores with their count", r"offsets: &mut \[u8\], values: &mut \[u8\], (?:n|count): usize"),
    ("5", "what is asked of a caller", r"requires (?:\w+ )?\{"),
    ("6", "a table with its length beside it, and what fills it", r"\[BankField; 28\]|\bUNUSED\b"),
    ("6", "an array with its length beside it", r"len: usize, (?:pub )?\w+: \[|\w+: \[\w+; \w+\], (?:pub )?len: usize"),
    ("6", "parallel slices", r"fields: &mut \[u8\], lens: &mut \[u8\]|calls: &\[u16\], chunks: &\[u8\]|"
          r"offsets: &(?:mut )?\[u8\], values: &(?:mut )?\[u8\](?!, (?:n|count))"),
    ("7", "a switch on which step to run", r"match (?:place|number|number / 16) \{"),
]


def main():
    arguments = [a for a in sys.argv[1:] if a != "--list"]
    root = arguments[0] if arguments else "."
    files = [(f, re.sub(r"\s+", " ", open(f, encoding="utf-8").read())) for f in sorted(glob.glob(root + "/crates/*/src/*.rt"))]
    for point, name, pattern in POINTS:
        found = [(f, m.group(0)) for f, text in files for m in re.finditer(pattern, text)]
        print(f"{point}  {len(found):4}  {name}")
        if "--list" in sys.argv:
            for f, text in found:
                print(f"        {f[len(root) + 1:]}: {text}")
    lines = sum(1 for f in glob.glob(root + "/crates/*/proofs/**/*.antt", recursive=True) for _ in open(f, encoding="utf-8"))
    print(f"8  {lines:4}  lines of proof")


main()
