//! The functions of `banks/bus_unit.rs`.

use dali2rust_domain::dali::banks::bus_unit::{
    BusUnitConfiguration, EmergencyGearType, ImplementedParts, BANK0_EXTENDED_LAST_OFFSET,
    BUS_UNIT_CONFIGURATION_OFFSET, IMPLEMENTED_PARTS_OFFSET,
};

use crate::function::{Function, Row, Source};
use crate::line::{Args, Line, Put, Sequence, Take};
use crate::part251::bytes;

pub const FUNCTIONS: &[&dyn Function] = &[
    &Row::new(0x60, "BusUnitConfiguration::from_byte", BusUnitConfiguration::from_byte, configuration_bytes),
    &Row::new(0x61, "BusUnitConfiguration::raw", BusUnitConfiguration::raw, configurations),
    &Row::new(
        0x62,
        "BusUnitConfiguration::emergency_letter",
        |configuration: BusUnitConfiguration| configuration.emergency_letter().map(byte_of),
        configurations,
    ),
    &Row::new(
        0x63,
        "EmergencyGearType::letter",
        |emergency: EmergencyGearType| byte_of(emergency.letter()),
        |_| TYPES.to_vec(),
    ),
    &Row::new(
        0x64,
        "ImplementedParts::from_byte, then raw",
        |raw| ImplementedParts::from_byte(raw).raw(),
        implemented_bytes,
    ),
    &Row::new(0x65, "ImplementedParts::in_range", |raw| ImplementedParts::from_byte(raw).in_range(), implemented_bytes),
    &Row::new(0x66, "ImplementedParts::parts", parts_into, parts_cases),
    &Row::new(0x67, "the constants of bus_unit.rs", |_: ()| CONSTANTS, |_| vec![()]),
];

/// The constants in the order of `bus_unit.rs`.
const CONSTANTS: [u8; 3] = [BUS_UNIT_CONFIGURATION_OFFSET, IMPLEMENTED_PARTS_OFFSET, BANK0_EXTENDED_LAST_OFFSET];

const TYPES: [EmergencyGearType; 4] =
    [EmergencyGearType::A, EmergencyGearType::B, EmergencyGearType::C, EmergencyGearType::D];

impl Put for EmergencyGearType {
    fn put(&self, line: &mut Line) {
        line.put(&(*self as u8));
    }
}

impl Take for EmergencyGearType {
    fn take(args: &mut Args) -> Option<Self> {
        args.one_of(&TYPES)
    }
}

impl Put for BusUnitConfiguration {
    fn put(&self, line: &mut Line) {
        match *self {
            Self::Defined(raw) => line.put(&(0u8, raw)),
            Self::EmergencyType(emergency) => line.put(&(1u8, emergency)),
            Self::Reserved(raw) => line.put(&(2u8, raw)),
            Self::ManufacturerSpecific(raw) => line.put(&(3u8, raw)),
        }
    }
}

impl Take for BusUnitConfiguration {
    fn take(args: &mut Args) -> Option<Self> {
        match args.take::<u8>()? {
            0 => args.take().map(Self::Defined),
            1 => args.take().map(Self::EmergencyType),
            2 => args.take().map(Self::Reserved),
            3 => args.take().map(Self::ManufacturerSpecific),
            _ => None,
        }
    }
}

/// Each letter is one of ASCII.
fn byte_of(letter: char) -> u8 {
    letter as u8
}

fn configuration_bytes(source: &mut Source) -> Vec<u8> {
    bytes(source, &[0, 1, 8, 9, 10, 11, 12, 13, 191, 192, 255])
}

/// Every configuration, also those that no byte gives; or each kind with the bytes around the edges.
fn configurations(source: &mut Source) -> Vec<BusUnitConfiguration> {
    let holding = |raw| {
        [
            BusUnitConfiguration::Defined(raw),
            BusUnitConfiguration::Reserved(raw),
            BusUnitConfiguration::ManufacturerSpecific(raw),
        ]
    };
    let bytes = bytes(source, &[0, 9, 255]).into_iter().flat_map(holding);
    bytes.chain(TYPES.map(BusUnitConfiguration::EmergencyType)).collect()
}

fn implemented_bytes(source: &mut Source) -> Vec<u8> {
    bytes(source, &[0x00, 0x01, 0x10, 0x15, 0x1F, 0x20, 0x3F, 0x80, 0xFF])
}

type PartsCase = (u8, Vec<u16>);

/// How many parts there are, and the slice with the first of them.
fn parts_into((raw, mut out): PartsCase) -> (usize, Sequence<u16>) {
    let parts: Vec<u16> = ImplementedParts::from_byte(raw).parts().collect();
    for (slot, part) in out.iter_mut().zip(&parts) {
        *slot = *part;
    }
    (parts.len(), Sequence(out))
}

fn parts_cases(source: &mut Source) -> Vec<PartsCase> {
    let lengths = source.scale.pick((0..=7).collect(), vec![0, 2, 5, 6]);
    let mut cases = Vec::new();
    for raw in implemented_bytes(source) {
        for length in &lengths {
            let out = (0..*length).map(|_| source.rng.number() as u16);
            cases.push((raw, out.collect()));
        }
    }
    cases
}
