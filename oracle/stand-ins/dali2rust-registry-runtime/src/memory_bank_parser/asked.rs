//! The private functions of the original, callable from outside. Nothing is computed here.

use dali2rust_contracts::msg::{FixedText, FixedText32, FixedText64};
use dali2rust_domain::dali::banks::part251::TextRegion;
use dali2rust_domain::dali::banks::ValueWidth;
use dali2rust_domain::registry::{BankReading, LuminaireValue};

use super::{
    ParsedBusUnit, ParsedCondition, ParsedEnergyBank, ParsedGearDiagnostics, ParsedLuminaire,
    ParsedLuminaireMaintenance, ParsedMemoryIdentity, ParsedMemoryProfile, ParsedSourceDiagnostics,
};

/// A member of a record.
#[derive(Debug, Clone, PartialEq, Eq)]
pub enum Member {
    Byte(Option<u8>),
    Number(Option<u64>),
    Scale(Option<i8>),
    Reading(Option<BankReading>),
    /// A flag and its counter.
    Condition(Option<BankReading>, Option<BankReading>),
}

/// A member of the luminaire record.
#[derive(Debug, Clone, PartialEq, Eq)]
pub enum LuminaireMember {
    Id(Option<u16>),
    Value(Option<LuminaireValue>),
    Text32(Option<FixedText32>),
    Text64(Option<FixedText64>),
}

impl From<Option<u8>> for Member {
    fn from(byte: Option<u8>) -> Self {
        Self::Byte(byte)
    }
}

impl From<Option<u64>> for Member {
    fn from(number: Option<u64>) -> Self {
        Self::Number(number)
    }
}

impl From<Option<i8>> for Member {
    fn from(scale: Option<i8>) -> Self {
        Self::Scale(scale)
    }
}

impl From<Option<BankReading>> for Member {
    fn from(reading: Option<BankReading>) -> Self {
        Self::Reading(reading)
    }
}

impl From<ParsedCondition> for Member {
    fn from(condition: ParsedCondition) -> Self {
        let ParsedCondition { flag, counter } = condition;
        Self::Condition(flag, counter)
    }
}

impl From<Option<u16>> for LuminaireMember {
    fn from(id: Option<u16>) -> Self {
        Self::Id(id)
    }
}

impl From<Option<LuminaireValue>> for LuminaireMember {
    fn from(value: Option<LuminaireValue>) -> Self {
        Self::Value(value)
    }
}

impl From<Option<FixedText32>> for LuminaireMember {
    fn from(text: Option<FixedText32>) -> Self {
        Self::Text32(text)
    }
}

impl From<Option<FixedText64>> for LuminaireMember {
    fn from(text: Option<FixedText64>) -> Self {
        Self::Text64(text)
    }
}

/// Each parser as a function that gives every member of its record. One that is left out here does not compile.
macro_rules! parsers {
    ($kind:ty; $($parser:ident: $record:ident { $($member:ident,)* })*) => {$(
        pub fn $parser(bytes: &[u8], start_offset: u16) -> Vec<$kind> {
            let $record { $($member),* } = super::$parser(bytes, start_offset);
            vec![$($member.into()),*]
        }
    )*};
}

parsers! {
    LuminaireMember;
    parse_bank1_luminaire: ParsedLuminaire {
        content_format_id,
        year,
        week,
        nominal_input_power_w,
        power_at_minimum_w,
        nominal_min_ac_voltage_v,
        nominal_max_ac_voltage_v,
        nominal_light_output_lm,
        cri,
        cct_kelvin,
        light_distribution_type,
        luminaire_colour,
        luminaire_identification,
        light_distribution,
        oem_name,
        customer_stocking_number,
        lamp_current_ma,
        free_use,
    }
}

parsers! {
    Member;
    parse_bank0_identity: ParsedMemoryIdentity {
        last_memory_bank,
        gtin,
        firmware_version_major,
        firmware_version_minor,
        identification_number,
        hardware_version_major,
        hardware_version_minor,
        dali_101_version,
        dali_102_version,
        dali_103_version,
        logical_control_device_units,
        logical_control_gear_units,
        logical_control_gear_index,
    }
    parse_bank1_profile: ParsedMemoryProfile {
        bank1_lock_byte,
        oem_gtin,
        oem_identification_number,
    }
    parse_bank0_bus_unit: ParsedBusUnit {
        configuration,
        implemented_parts,
    }
    parse_energy_bank: ParsedEnergyBank {
        bank_version,
        energy_scale,
        energy,
        power_scale,
        power,
    }
    parse_gear_diagnostics: ParsedGearDiagnostics {
        bank_version,
        operating_time_s,
        start_counter,
        supply_voltage_decivolt,
        supply_frequency_hz,
        power_factor_centi,
        overall_failure,
        undervoltage,
        overvoltage,
        output_power_limitation,
        thermal_derating,
        thermal_shutdown,
        temperature_offset60,
        output_current_percent,
    }
    parse_source_diagnostics: ParsedSourceDiagnostics {
        bank_version,
        start_counter_resettable,
        start_counter,
        on_time_resettable_s,
        on_time_s,
        voltage_decivolt,
        current_milliamp,
        overall_failure,
        short_circuit,
        open_circuit,
        thermal_derating,
        thermal_shutdown,
        temperature_offset60,
    }
    parse_luminaire_maintenance: ParsedLuminaireMaintenance {
        bank_version,
        rated_life_kilohours,
        reference_temperature_offset60,
        rated_starts_hundreds,
    }
}

pub fn byte(bytes: &[u8], start_offset: u16, index: usize) -> Option<u8> {
    super::byte(bytes, start_offset, index)
}

pub fn parse_reading(bytes: &[u8], start_offset: u16, offset: u8, width: ValueWidth) -> Option<BankReading> {
    super::parse_reading(bytes, start_offset, offset, width)
}

pub fn parse_scale(bytes: &[u8], start_offset: u16, offset: u8) -> Option<i8> {
    super::parse_scale(bytes, start_offset, offset)
}

pub fn text_region<const N: usize>(bytes: &[u8], start_offset: u16, region: TextRegion) -> Option<FixedText<N>> {
    super::text_region(bytes, start_offset, region)
}

pub fn escape_into_bounded<const N: usize>(raw: &[u8]) -> FixedText<N> {
    super::escape_into_bounded(raw)
}
