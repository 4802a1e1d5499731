//! `NumberRule::shows_back`, which the Rust keeps private: it is asked through a field made for it.

use dali2rust_domain::dali::banks::luminaire_write::{FieldKind, LuminaireField, NumberRule};
use dali2rust_domain::dali::banks::part251::LuminaireFormat;

use super::wanted::accepted_number;
use super::{edges, PATCHES, RULES};
use crate::function::{Cases, Row, Source};
use crate::part251::FORMATS;

pub const SHOWS_BACK: Row<RuleCase, bool> =
    Row::new(0x47, "NumberRule::shows_back", shows_back, rule_cases).domain(every_short_number).random(random_case);

pub type RuleCase = (NumberRule, u64, LuminaireFormat);

/// The Rust cuts a number that is past its rule's width, and 01 takes it as it is: there the Rust is not asked.
fn shows_back((rule, raw, format): RuleCase) -> bool {
    if raw < end_of_width(rule) {
        return field_of(rule).accepts_number(raw, format);
    }
    shows_past_width(rule)
}

/// A field that every `u32` fits.
fn field_of(rule: NumberRule) -> LuminaireField {
    let kind = FieldKind::Number { patch: PATCHES[0], rule };
    LuminaireField { name: "", offset: 0, len: 4, since: LuminaireFormat::V3, kind }
}

/// The first number past those that the Rust's rule takes whole.
fn end_of_width(rule: NumberRule) -> u64 {
    match rule {
        NumberRule::Year | NumberRule::Week | NumberRule::Cri | NumberRule::LightDistributionType => 1 << 8,
        NumberRule::Power | NumberRule::MainsVoltage | NumberRule::Cct | NumberRule::LampCurrent => 1 << 16,
        NumberRule::LightOutput => 1 << 32,
    }
}

/// 01's rules for such a number: "all but 65535" and "all but FFFFFF hex" accept it, and all others end before it.
fn shows_past_width(rule: NumberRule) -> bool {
    matches!(rule, NumberRule::Power | NumberRule::LightOutput | NumberRule::LampCurrent)
}

fn rule_cases(_: &mut Source) -> Vec<RuleCase> {
    let telling = |(rule, format)| telling_numbers(rule).into_iter().map(move |raw| (rule, raw, format));
    in_formats().flat_map(telling).collect()
}

/// Each rule in each format.
fn in_formats() -> impl Iterator<Item = (NumberRule, LuminaireFormat)> {
    RULES.into_iter().flat_map(|rule| FORMATS.map(|format| (rule, format)))
}

const BYTE_ENDS: [u64; 4] = [1 << 8, 1 << 16, 1 << 24, 1 << 32];

/// The edges of the rule, also where only the cut number has one, and those of the bytes.
fn telling_numbers(rule: NumberRule) -> Vec<u64> {
    let past = end_of_width(rule);
    let mut numbers = vec![0, 1, u64::MAX];
    numbers.extend(edges(rule));
    numbers.extend(edges(rule).iter().map(|edge| past + edge));
    numbers.extend(BYTE_ENDS.into_iter().flat_map(|end| [end - 2, end - 1, end, 2 * end - 1]));
    numbers
}

/// Each number of two bytes.
fn every_short_number() -> Cases<RuleCase> {
    Box::new(in_formats().flat_map(|(rule, format)| (0..1 << 16).map(move |raw| (rule, raw, format))))
}

/// One of any size, in the rule's width, accepted but for bits past that, or with its low bytes all ones.
fn random_case(source: &mut Source) -> RuleCase {
    let rng = &mut source.rng;
    let rule = rng.one_of(&RULES);
    let end = end_of_width(rule);
    let any = rng.number_of_any_size();
    let raw = match rng.below(4) {
        0 => any,
        1 => any % end,
        2 => any / end * end + u64::from(accepted_number(rng, rule)),
        _ => any | (rng.one_of(&BYTE_ENDS) - 1),
    };
    (rule, raw, rng.one_of(&FORMATS))
}
