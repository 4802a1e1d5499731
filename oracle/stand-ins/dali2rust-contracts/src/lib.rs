//! Stands in for the crate of this name, which is not published: `luminaire_write.rs`, `memory_bank_parser.rs` and
//! `attributes.rs` name these types, and do not compile without it.

pub mod msg {
    use std::convert::Infallible;

    #[derive(Debug, Clone, Copy, Default, PartialEq, Eq)]
    pub struct LuminaireNumbers {
        pub patch_mask: u16,
        pub year: u8,
        pub week: u8,
        pub nominal_input_power_w: u16,
        pub power_at_minimum_w: u16,
        pub nominal_min_ac_voltage_v: u16,
        pub nominal_max_ac_voltage_v: u16,
        pub nominal_light_output_lm: u32,
        pub cri: u8,
        pub cct_kelvin: u16,
        pub light_distribution_type: u8,
        pub lamp_current_ma: u16,
    }

    // The crate's own bits are not known. Each is another than the port's: one that is not mapped by its name shows.
    impl LuminaireNumbers {
        pub const PATCH_YEAR: u16 = 1 << 9;
        pub const PATCH_WEEK: u16 = 1 << 14;
        pub const PATCH_NOMINAL_INPUT_POWER_W: u16 = 1 << 3;
        pub const PATCH_POWER_AT_MINIMUM_W: u16 = 1 << 12;
        pub const PATCH_NOMINAL_MIN_AC_VOLTAGE_V: u16 = 1 << 0;
        pub const PATCH_NOMINAL_MAX_AC_VOLTAGE_V: u16 = 1 << 7;
        pub const PATCH_NOMINAL_LIGHT_OUTPUT_LM: u16 = 1 << 15;
        pub const PATCH_CRI: u16 = 1 << 5;
        pub const PATCH_CCT_KELVIN: u16 = 1 << 11;
        pub const PATCH_LIGHT_DISTRIBUTION_TYPE: u16 = 1 << 1;
        pub const PATCH_LAMP_CURRENT_MA: u16 = 1 << 6;
    }

    #[derive(Debug, Clone, Copy, PartialEq, Eq)]
    pub enum LuminaireTextField {
        LuminaireColour,
        LuminaireIdentification,
        LightDistribution,
        OemName,
        CustomerStockingNumber,
        FreeUse,
    }

    /// A text of any bytes and any length, so that every one can be asked.
    #[derive(Debug, Clone, Default, PartialEq, Eq)]
    pub struct LuminaireText(pub Vec<u8>);

    impl LuminaireText {
        pub fn new() -> Self {
            Self::default()
        }

        pub fn push_str(&mut self, text: &str) -> Result<(), Infallible> {
            self.0.extend_from_slice(text.as_bytes());
            Ok(())
        }

        pub fn as_bytes(&self) -> &[u8] {
            &self.0
        }
    }

    #[derive(Debug, Clone, PartialEq, Eq)]
    pub struct LuminaireTextWrite {
        pub field: LuminaireTextField,
        pub text: LuminaireText,
    }

    /// A text of at most `N` bytes. What does not fit whole is refused, and no part of it enters.
    #[derive(Debug, Clone, Default, PartialEq, Eq)]
    pub struct FixedText<const N: usize>(String);

    pub type FixedText32 = FixedText<32>;
    pub type FixedText64 = FixedText<64>;

    /// Refuses what does not fit.
    #[derive(Debug, Clone, Copy, PartialEq, Eq)]
    pub struct Full;

    impl<const N: usize> FixedText<N> {
        pub fn new() -> Self {
            Self::default()
        }

        pub fn push(&mut self, letter: char) -> Result<(), Full> {
            self.push_str(letter.encode_utf8(&mut [0; 4]))
        }

        pub fn push_str(&mut self, text: &str) -> Result<(), Full> {
            if self.0.len() + text.len() > N {
                return Err(Full);
            }
            self.0.push_str(text);
            Ok(())
        }

        pub fn as_str(&self) -> &str {
            &self.0
        }

        pub fn as_bytes(&self) -> &[u8] {
            self.0.as_bytes()
        }
    }
}
