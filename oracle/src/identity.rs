//! The functions of `banks/identity.rs`.

use dali2rust_domain::dali::banks::identity::{
    DeviceIdentity, IdentityRead, GTIN_LEN, GTIN_OFFSET, IDENTIFICATION_NUMBER_LEN, IDENTIFICATION_NUMBER_OFFSET,
    IDENTITY_BANK, IDENTITY_UNKNOWN, IDENTITY_UNPROVABLE, IDENTITY_WINDOW_LEN, LOGICAL_GEAR_INDEX_OFFSET, MASK,
};

use crate::function::{Function, Row, Scale, Source};
use crate::line::{Args, Line, Put, Take};
use crate::rng::Rng;

pub const FUNCTIONS: &[&dyn Function] = &[
    &Row::new(0x50, "IdentityRead::of_bank0", |bank: Vec<u8>| IdentityRead::of_bank0(&bank), bank_cases)
        .random(random_bank),
    &Row::new(0x51, "IdentityRead::of_window", |window: Vec<u8>| IdentityRead::of_window(&window), window_cases)
        .random(random_window),
    &Row::new(0x52, "IdentityRead::known", |read: IdentityRead| read.known().map_err(number_of), reads),
    &Row::new(0x53, "the constants of identity.rs", constants, |_| vec![()]),
];

/// The constants in the order of `identity.rs`, without the range and the texts.
fn constants(_: ()) -> (u8, u8, usize, u8, usize, u8, u16, u8) {
    (
        IDENTITY_BANK,
        GTIN_OFFSET,
        GTIN_LEN,
        IDENTIFICATION_NUMBER_OFFSET,
        IDENTIFICATION_NUMBER_LEN,
        LOGICAL_GEAR_INDEX_OFFSET,
        IDENTITY_WINDOW_LEN,
        MASK,
    )
}

/// The number of a cause.
fn number_of(cause: &str) -> u8 {
    match cause {
        IDENTITY_UNKNOWN => 1,
        IDENTITY_UNPROVABLE => 2,
        _ => unreachable!("{cause} is no cause of an identity that is not known"),
    }
}

impl Put for DeviceIdentity {
    fn put(&self, line: &mut Line) {
        line.put(&(self.gtin, self.identification_number, self.logical_gear_index));
    }
}

impl Take for DeviceIdentity {
    fn take(args: &mut Args) -> Option<Self> {
        let (gtin, identification_number, logical_gear_index) = args.take()?;
        Some(Self { gtin, identification_number, logical_gear_index })
    }
}

impl Put for IdentityRead {
    fn put(&self, line: &mut Line) {
        match self {
            Self::Unread => line.put(&0u8),
            Self::Unprovable => line.put(&1u8),
            Self::Known(identity) => line.put(&(2u8, *identity)),
        }
    }
}

impl Take for IdentityRead {
    fn take(args: &mut Args) -> Option<Self> {
        match args.take::<u8>()? {
            0 => Some(Self::Unread),
            1 => Some(Self::Unprovable),
            2 => args.take().map(Self::Known),
            _ => None,
        }
    }
}

/// The offset and length of each part of an identity.
const PARTS: [(usize, usize); 3] = [
    (GTIN_OFFSET as usize, GTIN_LEN),
    (IDENTIFICATION_NUMBER_OFFSET as usize, IDENTIFICATION_NUMBER_LEN),
    (LOGICAL_GEAR_INDEX_OFFSET as usize, 1),
];

/// The part of a bank that holds the mask, and a byte of it that does not.
#[derive(Clone, Copy)]
struct Masked {
    offset: usize,
    len: usize,
    but: Option<usize>,
}

impl Masked {
    const NOTHING: Self = Self { offset: 0, len: 0, but: None };

    fn has(self, place: usize) -> bool {
        (self.offset..self.offset + self.len).contains(&place) && self.but != Some(place)
    }
}

/// Nothing; and each part, whole and but for each of its bytes.
fn every_masked() -> Vec<Masked> {
    let mut every = vec![Masked::NOTHING];
    for (offset, len) in PARTS {
        let buts = (offset..offset + len).map(Some).chain([None]);
        every.extend(buts.map(|but| Masked { offset, len, but }));
    }
    every
}

fn random_masked(rng: &mut Rng) -> Masked {
    let (offset, len) = rng.one_of(&PARTS);
    let but = offset + rng.below(len);
    let part = Masked { offset, len, but: rng.one_of(&[None, Some(but)]) };
    rng.one_of(&[Masked::NOTHING, part])
}

/// A bank that holds the mask in the part, and nowhere else.
fn bank(rng: &mut Rng, length: usize, masked: Masked) -> Vec<u8> {
    let byte = |place| if masked.has(place) { MASK } else { rng.below(usize::from(MASK)) as u8 };
    (0..length).map(byte).collect()
}

/// The bytes of an identity, and those before it.
const WHOLE: usize = LOGICAL_GEAR_INDEX_OFFSET as usize + 1;

/// How long a bank is, and what is masked in it: every length with every part, or a whole identity with every part and
/// other lengths with none.
fn shapes(scale: Scale) -> Vec<(usize, Masked)> {
    let lengths = scale.pick((0..=43).collect(), vec![0, 1, 3, WHOLE - 1, WHOLE + 1]);
    let masked = scale.pick(every_masked(), vec![Masked::NOTHING]);
    let any = lengths.into_iter().flat_map(|length| masked.iter().map(move |masked| (length, *masked)));
    let whole = every_masked().into_iter().map(|masked| (WHOLE, masked));
    any.chain(whole).collect()
}

/// The last offsets around that of the last part.
const LASTS: [u8; 2] = [0x19, 0x1A];

fn bank_cases(source: &mut Source) -> Vec<Vec<u8>> {
    let lasts = source.scale.pick(vec![0x00, 0x19, 0x1A, 0x1B, 0xFF], LASTS.to_vec());
    let mut cases = Vec::new();
    for (length, masked) in shapes(source.scale) {
        for last in &lasts {
            cases.push(bank_with_last(&mut source.rng, length, masked, *last));
        }
    }
    cases
}

/// A bank whose first byte is this, if it has one.
fn bank_with_last(rng: &mut Rng, length: usize, masked: Masked, last: u8) -> Vec<u8> {
    let mut bank = bank(rng, length, masked);
    if let Some(first) = bank.first_mut() {
        *first = last;
    }
    bank
}

fn random_bank(source: &mut Source) -> Vec<u8> {
    let rng = &mut source.rng;
    let last = match rng.below(2) {
        0 => rng.number() as u8,
        _ => rng.one_of(&LASTS),
    };
    let length = random_length(rng);
    let masked = random_masked(rng);
    bank_with_last(rng, length, masked, last)
}

/// Mostly that of a whole identity.
fn random_length(rng: &mut Rng) -> usize {
    match rng.below(4) {
        0 => rng.below(44),
        _ => WHOLE,
    }
}

fn window_cases(source: &mut Source) -> Vec<Vec<u8>> {
    let shapes = shapes(source.scale);
    shapes.into_iter().map(|(length, masked)| window(&mut source.rng, length, masked)).collect()
}

fn random_window(source: &mut Source) -> Vec<u8> {
    let rng = &mut source.rng;
    let length = random_length(rng);
    let masked = random_masked(rng);
    window(rng, length, masked)
}

/// What a bank has from the first part on.
fn window(rng: &mut Rng, length: usize, masked: Masked) -> Vec<u8> {
    bank(rng, length, masked).split_off(length.min(usize::from(GTIN_OFFSET)))
}

fn reads(source: &mut Source) -> Vec<IdentityRead> {
    let mut reads = vec![IdentityRead::Unread, IdentityRead::Unprovable];
    for gtin in [0, 0xFFFF_FFFF_FFFE, u64::MAX, source.rng.number()] {
        for identification_number in [0, u64::MAX, source.rng.number()] {
            let known = |logical_gear_index| DeviceIdentity { gtin, identification_number, logical_gear_index };
            reads.extend([0, MASK].map(known).map(IdentityRead::Known));
        }
    }
    reads
}
