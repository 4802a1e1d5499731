//! The files that the program `stores` is run on.

use dali2rust_domain::dali::banks::luminaire_write::{NumberRule, LUMINAIRE_FIELDS};

use super::{Told, MARK, NO_TEXT, VERSION, WIDTHS};
use crate::luminaire_write::{
    index_of, longest, number_fields, random_layout_and_wanted, telling_u32s, text_fields, wanting, with_bit, Numbers,
    Wanted, TELLING_BYTES,
};
use crate::rng::Rng;

fn file_of(told: &Told) -> Vec<u8> {
    let Wanted { numbers, index, text } = &told.wanted;
    let mut file = MARK.to_vec();
    put(&mut file, VERSION, 2);
    put(&mut file, told.last_offset.into(), 1);
    put(&mut file, told.content_format_id.into(), 2);
    put(&mut file, numbers.mask.into(), 2);
    for (value, width) in numbers.values.into_iter().zip(WIDTHS) {
        put(&mut file, value, width);
    }
    put(&mut file, index.map_or(NO_TEXT, |index| index as u32), 1);
    put(&mut file, text.len() as u32, 1);
    file.extend(text);
    file
}

/// Puts the low bytes of a number.
fn put(file: &mut Vec<u8>, number: u32, width: usize) {
    let bytes = number.to_be_bytes();
    file.extend(&bytes[bytes.len() - width..]);
}

/// A file and its name.
pub type Case = (String, Vec<u8>);

type ToldCase = (String, Told);

pub fn stored_cases() -> Vec<Case> {
    let told = [plain(), refused(), in_formats(), at_last_offsets(), numbers()];
    let told = told.into_iter().chain([texts(), text_bytes(), foreign_texts(), in_order()]);
    let files = told.flatten().map(|(name, told)| (name, file_of(&told)));
    files.chain(bad_files()).collect()
}

/// A case in format 5, with every field of it.
fn case(name: impl Into<String>, wanted: Wanted) -> ToldCase {
    (name.into(), Told { last_offset: 0xC9, content_format_id: 5, wanted })
}

fn plain() -> Vec<ToldCase> {
    let numbers = Wanted { index: None, text: vec![], ..longest() };
    vec![
        case("listing", listing()),
        case("nothing", Wanted::NOTHING),
        case("empty_colour", Wanted::text(11, b"")),
        case("full_free_use", Wanted::text(17, b"ABCDEFGH")),
        case("all_numbers", numbers),
        case("all_numbers_and_full_identification", longest()),
    ]
}

fn listing() -> Wanted {
    Wanted::text(12, b"AB")
}

/// Each refusal that does not depend on a value.
fn refused() -> Vec<ToldCase> {
    let mask_bit = |bit| {
        let wanted = Wanted { numbers: with_bit(bit), ..Wanted::NOTHING };
        case(format!("mask_bit_{bit}"), wanted)
    };
    let mut cases: Vec<_> = (11..16).map(mask_bit).collect();
    cases.extend([18, 19, 0x80, 0xFE].map(|index| case(format!("text_index_{index}"), Wanted::text(index, b"AB"))));
    for id in [0, 2, 6, 0x0103, 0x0500, 0xFFFF] {
        cases.push(in_format(case(format!("year_in_format_{id}"), wanting(&LUMINAIRE_FIELDS[1])), id));
        cases.push(in_format(case(format!("nothing_in_format_{id}"), Wanted::NOTHING), id));
    }
    cases
}

fn in_format((name, told): ToldCase, content_format_id: u16) -> ToldCase {
    (name, Told { content_format_id, ..told })
}

/// Each field in each format, the layout id too.
fn in_formats() -> Vec<ToldCase> {
    let mut cases = Vec::new();
    for field in &LUMINAIRE_FIELDS {
        let name = |id| format!("{}_in_format_{id}", field.name);
        cases.extend((3..=5).map(|id| in_format(case(name(id), wanting(field)), id)));
    }
    cases
}

/// Each field at the end of the bank, and ending just past it.
fn at_last_offsets() -> Vec<ToldCase> {
    let mut cases = Vec::new();
    for field in &LUMINAIRE_FIELDS[1..] {
        let ending = |how, last_offset| {
            let (name, told) = case(format!("{}_ends_{how}", field.name), wanting(field));
            (name, Told { last_offset, ..told })
        };
        cases.push(ending("at_last_offset", field.last_offset()));
        cases.push(ending("past_last_offset", field.last_offset() - 1));
    }
    cases
}

/// Each number around the edges of its rule and its bytes. One rule asks for the format.
fn numbers() -> Vec<ToldCase> {
    let mut cases = Vec::new();
    for (field, rule) in number_fields() {
        let end = 1 << (8 * field.len);
        for value in telling_u32s(field).into_iter().filter(|value| *value < end) {
            let case = case(format!("{}_{value}", field.name), Wanted::number(field, value));
            if rule == NumberRule::LightDistributionType {
                let (name, told) = &case;
                cases.extend([3, 4].map(|id| in_format((format!("{name}_in_format_{id}"), told.clone()), id)));
            }
            cases.push(case);
        }
    }
    cases
}

fn texts() -> Vec<ToldCase> {
    let mut cases = Vec::new();
    for field in text_fields() {
        let len = usize::from(field.len);
        let lengths = [
            ("empty", 0),
            ("one_byte", 1),
            ("two_bytes", 2),
            ("one_short_of_full", len - 1),
            ("full", len),
            ("one_too_long", len + 1),
            ("of_255_bytes", 255),
        ];
        let text = |length| Wanted::text(index_of(field), &letters(length));
        cases.extend(lengths.map(|(how, length)| case(format!("{}_{how}", field.name), text(length))));
    }
    cases
}

/// A text in which each byte differs from its neighbours.
fn letters(length: usize) -> Vec<u8> {
    (b'A'..=b'Z').cycle().take(length).collect()
}

/// Bytes around the printable ones at the start of a text and at its end.
fn text_bytes() -> Vec<ToldCase> {
    let mut cases = Vec::new();
    for byte in TELLING_BYTES {
        cases.push(case(format!("text_byte_{byte:02x}_first"), Wanted::text(12, &[byte, b'A', b'B'])));
        cases.push(case(format!("text_byte_{byte:02x}_last"), Wanted::text(12, &[b'A', b'B', byte])));
    }
    cases.push(case("text_letter_of_two_bytes", Wanted::text(12, "é".as_bytes())));
    cases
}

/// Identifications with several foreign bytes, or with one at the field's last place. The last is two bytes too long.
fn foreign_texts() -> Vec<ToldCase> {
    let last = with_bytes(&letters(60), 59, b"\n");
    let first_and_last = with_bytes(&last, 0, &[0xFF]);
    let texts = [
        ("text_with_several_foreign_bytes", b"AB\x7FC\x00D\xFFE".to_vec()),
        ("full_text_with_foreign_last_byte", last),
        ("full_text_with_foreign_first_and_last_byte", first_and_last),
        ("text_of_30_letters_of_two_bytes", "é".repeat(30).into_bytes()),
        ("text_of_31_letters_of_two_bytes", "é".repeat(31).into_bytes()),
    ];
    texts.map(|(name, text)| case(name, Wanted::text(12, &text))).to_vec()
}

/// Files with several reasons for a refusal: the name says which comes first.
fn in_order() -> Vec<ToldCase> {
    let [year, lamp_current] = [1, 16].map(|index| &LUMINAIRE_FIELDS[index]);
    let accepted = Numbers::NONE.with(year, 24);
    let refused = Numbers::NONE.with(year, 100);
    let last_refused = Numbers::NONE.with(lamp_current, 0xFFFF);
    let with_text = |numbers, index, text: &[u8]| Wanted { numbers, ..Wanted::text(index, text) };
    let foreign_at = |place| with_bytes(&letters(25), place, b"\n");
    vec![
        case("mask_before_text_index", with_text(with_bit(11), 18, b"")),
        case("text_index_before_number", with_text(refused, 18, b"")),
        case("text_at_layout_id_before_number", with_text(refused, 0, b"AB")),
        case("number_before_text_at_its_index", with_text(refused, 1, b"AB")),
        case("text_at_index_of_accepted_number", with_text(accepted, 1, b"AB")),
        case("text_at_index_of_unwanted_number", Wanted::text(1, b"AB")),
        case("empty_text_at_index_of_unwanted_number", Wanted::text(1, b"")),
        case("number_before_text", with_text(refused, 11, b"\n")),
        case("text_behind_accepted_number", with_text(accepted, 11, b"\n")),
        case("text_before_number", with_text(last_refused, 15, b"\n")),
        case("number_behind_accepted_text", with_text(last_refused, 15, b"AB")),
        in_format(case("text_before_number_not_in_format", with_text(last_refused, 11, b"\n")), 4),
        in_format(case("number_not_in_format_behind_accepted_text", with_text(last_refused, 11, b"AB")), 4),
        in_format(case("number_before_text_not_in_format", with_text(refused, 14, b"AB")), 4),
        in_format(case("text_not_in_format_before_its_bytes", with_text(accepted, 14, b"\n")), 4),
        in_format(case("text_not_in_format_before_its_length", Wanted::text(14, &letters(61))), 4),
        case("text_at_layout_id_before_its_length_and_bytes", Wanted::text(0, b"\n\n\n")),
        case("text_at_number_before_its_length_and_bytes", Wanted::text(1, b"\n\n")),
        case("text_length_before_its_bytes", Wanted::text(11, &foreign_at(0))),
        case("text_length_before_its_last_byte_in_the_field", Wanted::text(11, &foreign_at(23))),
        case("text_length_before_its_byte_past_the_field", Wanted::text(11, &foreign_at(24))),
    ]
}

/// Files that lack something, made from the listing's.
fn bad_files() -> Vec<Case> {
    let file = file_of(&case("", listing()).1);
    let no_text = file_of(&case("", Wanted::NOTHING).1);
    let length = no_text.len() - 1;
    let cases = vec![
        ("empty_file", vec![]),
        ("wrong_mark_byte_1", with_bytes(&file, 0, b"l")),
        ("wrong_mark_byte_2", with_bytes(&file, 1, b"w")),
        ("wrong_mark_byte_3", with_bytes(&file, 2, b"e")),
        ("version_0", with_bytes(&file, 3, &[0, 0])),
        ("version_2", with_bytes(&file, 3, &[0, 2])),
        ("version_256", with_bytes(&file, 3, &[1, 0])),
        ("version_257", with_bytes(&file, 3, &[1, 1])),
        ("one_byte_short", file[..file.len() - 1].to_vec()),
        ("one_byte_long", [&file[..], b"C"].concat()),
        ("text_length_one_more", with_bytes(&file, length, &[3])),
        ("text_length_one_less", with_bytes(&file, length, &[1])),
        ("text_length_0", with_bytes(&file, length, &[0])),
        ("no_text_of_length_1", [&with_bytes(&no_text, length, &[1]), &b"A"[..]].concat()),
        ("no_text_of_length_1_without_its_byte", with_bytes(&no_text, length, &[1])),
        ("no_text_with_a_byte_behind", [&no_text, &b"A"[..]].concat()),
        ("very_long_file", lengthened(&file, 5_000)),
    ];
    let cuts = cuts().into_iter().map(|(name, end)| (name, file[..end].to_vec()));
    cases.into_iter().map(|(name, file)| (name.to_owned(), file)).chain(cuts).collect()
}

fn with_bytes(file: &[u8], place: usize, bytes: &[u8]) -> Vec<u8> {
    let mut file = file.to_vec();
    file[place..place + bytes.len()].copy_from_slice(bytes);
    file
}

fn lengthened(file: &[u8], length: usize) -> Vec<u8> {
    let mut file = file.to_vec();
    file.resize(length, 0);
    file
}

/// Where the listing's file ends when the last byte of a part and all behind it is cut off.
fn cuts() -> Vec<(String, usize)> {
    let head = [("mark", 3), ("version", 2), ("last_offset", 1), ("content_format_id", 2), ("patch_mask", 2)];
    let numbers = number_fields().map(|(field, _)| field.name).zip(WIDTHS);
    let parts = head.into_iter().chain(numbers).chain([("text_index", 1), ("text_length", 1), ("text", 2)]);
    let mut end = 0;
    let mut cuts = Vec::new();
    for (part, width) in parts {
        end += width;
        cuts.push((format!("cut_in_{part}"), end - 1));
    }
    cuts
}

/// Files longer than any that a program needs to hold.
pub fn long_files() -> [Vec<u8>; 2] {
    let file = file_of(&case("", listing()).1);
    [lengthened(&file, 100_000), vec![0; 5_000]]
}

/// A file that is sound, or has a byte changed, bytes cut off or bytes behind it.
pub fn random_file(rng: &mut Rng) -> Vec<u8> {
    let mut file = file_of(&random_told(rng));
    match rng.below(8) {
        0 => {
            let place = rng.below(file.len());
            file[place] = rng.number() as u8;
        }
        1 => file.truncate(rng.below(file.len())),
        2 => {
            let more = 1 + rng.below(300);
            file.extend(rng.bytes(more));
        }
        _ => {}
    }
    file
}

/// Mostly without bytes of a text where there is none.
fn random_told(rng: &mut Rng) -> Told {
    let (layout, mut wanted) = random_layout_and_wanted(rng);
    if wanted.index.is_none() && rng.below(8) > 0 {
        wanted.text.clear();
    }
    Told {
        last_offset: layout.last_offset.unwrap_or_default(),
        content_format_id: layout.content_format_id.unwrap_or_default(),
        wanted,
    }
}
