//! Lines of upper-case hexadecimal digits, two to a byte. Requests and answers write a value in the same digits.

const DIGITS: &[u8; 16] = b"0123456789ABCDEF";

// A `usize` has 8 bytes in a line.
const _: () = assert!(usize::BITS == 64);

/// A line in the making.
#[derive(Default)]
pub struct Line {
    text: Vec<u8>,
}

impl Line {
    pub fn put(&mut self, value: &impl Put) {
        value.put(self);
    }

    pub fn text(&self) -> &[u8] {
        &self.text
    }

    pub fn clear(&mut self) {
        self.text.clear();
    }

    fn bytes(&mut self, bytes: &[u8]) {
        for byte in bytes {
            self.text.push(DIGITS[usize::from(byte >> 4)]);
            self.text.push(DIGITS[usize::from(byte & 0x0F)]);
        }
    }
}

/// The digits of a line that are still to be taken.
pub struct Args<'a> {
    digits: &'a [u8],
}

impl<'a> Args<'a> {
    pub fn new(digits: &'a [u8]) -> Self {
        Self { digits }
    }

    /// The next value, or none if the digits are not one.
    pub fn take<T: Take>(&mut self) -> Option<T> {
        T::take(self)
    }

    /// As many values.
    pub fn several<T: Take>(&mut self, count: usize) -> Option<Vec<T>> {
        (0..count).map(|_| self.take()).collect()
    }

    /// The value whose place among these is the next byte.
    pub fn one_of<T: Copy>(&mut self, values: &[T]) -> Option<T> {
        let place: u8 = self.take()?;
        values.get(usize::from(place)).copied()
    }

    pub fn is_empty(&self) -> bool {
        self.digits.is_empty()
    }

    fn byte(&mut self) -> Option<u8> {
        let ([high, low], rest) = self.digits.split_first_chunk()?;
        self.digits = rest;
        Some(digit(*high)? << 4 | digit(*low)?)
    }

    fn array<const N: usize>(&mut self) -> Option<[u8; N]> {
        let mut bytes = [0; N];
        for byte in &mut bytes {
            *byte = self.byte()?;
        }
        Some(bytes)
    }
}

fn digit(digit: u8) -> Option<u8> {
    let value = DIGITS.iter().position(|known| *known == digit)?;
    Some(value as u8)
}

/// A value that a line can hold.
pub trait Put {
    fn put(&self, line: &mut Line);
}

/// A value that can be taken from a line.
pub trait Take: Sized {
    fn take(args: &mut Args) -> Option<Self>;
}

macro_rules! numbers {
    ($($number:ty)*) => {$(
        impl Put for $number {
            fn put(&self, line: &mut Line) {
                line.bytes(&self.to_be_bytes());
            }
        }

        impl Take for $number {
            fn take(args: &mut Args) -> Option<Self> {
                args.array().map(Self::from_be_bytes)
            }
        }
    )*};
}

numbers!(u8 u16 u32 u64 usize);

macro_rules! tuples {
    ($(($($member:ident)*))*) => {$(
        #[allow(non_snake_case)]
        impl<$($member: Put),*> Put for ($($member,)*) {
            fn put(&self, line: &mut Line) {
                let ($($member,)*) = self;
                $(line.put($member);)*
            }
        }

        impl<$($member: Take),*> Take for ($($member,)*) {
            fn take(args: &mut Args) -> Option<Self> {
                Some(($(args.take::<$member>()?,)*))
            }
        }
    )*};
}

tuples!((A B)(A B C)(A B C D)(A B C D E)(A B C D E F)(A B C D E F G)(A B C D E F G H));

impl Put for () {
    fn put(&self, _: &mut Line) {}
}

impl Take for () {
    fn take(_: &mut Args) -> Option<Self> {
        Some(())
    }
}

impl Put for bool {
    fn put(&self, line: &mut Line) {
        line.put(&u8::from(*self));
    }
}

impl Take for bool {
    fn take(args: &mut Args) -> Option<Self> {
        args.one_of(&[false, true])
    }
}

impl Put for i64 {
    fn put(&self, line: &mut Line) {
        let negative = *self < 0;
        let number = if negative { -1 - *self } else { *self };
        line.put(&(negative, number as u64));
    }
}

impl Put for i8 {
    fn put(&self, line: &mut Line) {
        line.put(&i64::from(*self));
    }
}

impl Take for i8 {
    fn take(args: &mut Args) -> Option<Self> {
        let (negative, number): (bool, u64) = args.take()?;
        let number = i8::try_from(number).ok()?;
        Some(if negative { -1 - number } else { number })
    }
}

impl<T: Put> Put for Option<T> {
    fn put(&self, line: &mut Line) {
        line.put(&self.is_some());
        if let Some(value) = self {
            line.put(value);
        }
    }
}

impl<T: Take> Take for Option<T> {
    fn take(args: &mut Args) -> Option<Self> {
        let some: bool = args.take()?;
        if some {
            args.take().map(Some)
        } else {
            Some(None)
        }
    }
}

/// A refusal puts its number first, which is never 0.
impl<T: Put, R: Put> Put for Result<T, R> {
    fn put(&self, line: &mut Line) {
        match self {
            Ok(value) => {
                line.put(&0u8);
                line.put(value);
            }
            Err(refusal) => line.put(refusal),
        }
    }
}

impl<T: Put, const N: usize> Put for [T; N] {
    fn put(&self, line: &mut Line) {
        for value in self {
            line.put(value);
        }
    }
}

impl<T: Take + Copy + Default, const N: usize> Take for [T; N] {
    fn take(args: &mut Args) -> Option<Self> {
        let mut values = [T::default(); N];
        for value in &mut values {
            *value = args.take()?;
        }
        Some(values)
    }
}

/// A lent slice: its length in elements, then these.
impl<T: Put> Put for Vec<T> {
    fn put(&self, line: &mut Line) {
        line.put(&(self.len() as u16));
        for element in self {
            line.put(element);
        }
    }
}

impl<T: Take> Take for Vec<T> {
    fn take(args: &mut Args) -> Option<Self> {
        let length: u16 = args.take()?;
        args.several(length.into())
    }
}

/// A lent output as the call left it. Its length is that of the request, so an answer has its bytes alone.
pub struct Output(pub Vec<u8>);

impl Put for Output {
    fn put(&self, line: &mut Line) {
        line.bytes(&self.0);
    }
}

/// Values without their number: in a request they go on to the end of the line.
pub struct Sequence<T>(pub Vec<T>);

impl<T: Put> Put for Sequence<T> {
    fn put(&self, line: &mut Line) {
        for value in &self.0 {
            line.put(value);
        }
    }
}

impl<T: Take> Take for Sequence<T> {
    fn take(args: &mut Args) -> Option<Self> {
        let mut values = Vec::new();
        while !args.is_empty() {
            values.push(args.take()?);
        }
        Some(Self(values))
    }
}
