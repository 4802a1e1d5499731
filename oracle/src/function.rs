//! What a function of the comparison is: how the Rust answers it, and which cases it is asked.

use std::io;

use crate::line::{Args, Line, Put, Take};
use crate::rng::Rng;
use crate::{banks, bus_unit, cut_plan, identity, layout, luminaire_write, memory_bank_parser, part251, read_out};

/// How many cases to make.
#[derive(Clone, Copy)]
pub enum Scale {
    /// For `compare`: whole domains as far as they go, and many random cases.
    Full,
    /// For `list`: every edge, and few cases between.
    List,
}

impl Scale {
    pub fn pick<T>(self, full: T, list: T) -> T {
        match self {
            Self::Full => full,
            Self::List => list,
        }
    }

    fn random_cases(self) -> usize {
        self.pick(500_000, 20)
    }
}

/// What cases are made from.
pub struct Source {
    pub scale: Scale,
    pub rng: Rng,
}

impl Source {
    pub fn new(scale: Scale, seed: u64) -> Self {
        let rng = Rng::new(seed);
        Self { scale, rng }
    }
}

/// A row of a table: a function with arguments `A` and the answer `R`.
pub struct Row<A, R> {
    number: u8,
    name: &'static str,
    answer: fn(A) -> R,
    all: fn(&mut Source) -> Vec<A>,
    domain: Option<fn() -> Cases<A>>,
    random: Option<fn(&mut Source) -> A>,
    rounds: usize,
    also: Option<fn(&A, &mut Line)>,
}

/// Cases that are made one at a time.
pub type Cases<A> = Box<dyn Iterator<Item = A>>;

impl<A, R> Row<A, R> {
    /// `all` makes the cases that every run has: a whole domain, or its edges.
    pub const fn new(number: u8, name: &'static str, answer: fn(A) -> R, all: fn(&mut Source) -> Vec<A>) -> Self {
        Self { number, name, answer, all, domain: None, random: None, rounds: 1, also: None }
    }

    /// Adds, at full scale, a domain that is too large to be held at once.
    pub const fn domain(mut self, domain: fn() -> Cases<A>) -> Self {
        self.domain = Some(domain);
        self
    }

    /// Adds random cases, each made by `random`.
    pub const fn random(mut self, random: fn(&mut Source) -> A) -> Self {
        self.random = Some(random);
        self
    }

    /// Makes the random cases so many times over.
    pub const fn rounds(mut self, rounds: usize) -> Self {
        self.rounds = rounds;
        self
    }

    /// Asks, at full scale, another function of each case too, by the request that `also` puts. That one has a larger
    /// number, so that its own turn ends with all its cases asked.
    pub const fn also(mut self, also: fn(&A, &mut Line)) -> Self {
        self.also = Some(also);
        self
    }
}

impl<A: Put, R> Row<A, R> {
    pub fn put_request(&self, case: &A, request: &mut Line) {
        request.clear();
        request.put(&self.number);
        request.put(case);
    }
}

/// A row of any types.
pub trait Function {
    fn number(&self) -> u8;
    fn name(&self) -> &'static str;

    /// Puts the Rust's answer, or gives none if the arguments are malformed.
    fn answer(&self, args: &mut Args, answer: &mut Line) -> Option<()>;

    /// Asks every case, as one request each, and those that come with it.
    fn ask(&self, source: &mut Source, ask: &mut Ask) -> io::Result<()>;
}

pub type Ask<'a> = dyn FnMut(&[u8]) -> io::Result<()> + 'a;

impl<A: Put + Take, R: Put> Function for Row<A, R> {
    fn number(&self) -> u8 {
        self.number
    }

    fn name(&self) -> &'static str {
        self.name
    }

    fn answer(&self, args: &mut Args, answer: &mut Line) -> Option<()> {
        let case = args.take()?;
        args.is_empty().then(|| answer.put(&(self.answer)(case)))
    }

    fn ask(&self, source: &mut Source, ask: &mut Ask) -> io::Result<()> {
        let also = source.scale.pick(self.also, None);
        let mut request = Line::default();
        let mut ask_case = |case: A| {
            self.put_request(&case, &mut request);
            ask(request.text())?;
            let Some(also) = also else {
                return Ok(());
            };
            also(&case, &mut request);
            ask(request.text())
        };
        (self.all)(source).into_iter().try_for_each(&mut ask_case)?;
        if let (Scale::Full, Some(domain)) = (source.scale, self.domain) {
            domain().try_for_each(&mut ask_case)?;
        }
        let Some(random) = self.random else {
            return Ok(());
        };
        (0..self.rounds * source.scale.random_cases()).try_for_each(|_| ask_case(random(source)))
    }
}

/// The tables, each at the high digit of its numbers.
const TABLES: [&[&dyn Function]; 9] = [
    banks::FUNCTIONS,
    layout::FUNCTIONS,
    part251::FUNCTIONS,
    luminaire_write::FUNCTIONS,
    read_out::FUNCTIONS,
    identity::FUNCTIONS,
    bus_unit::FUNCTIONS,
    memory_bank_parser::FUNCTIONS,
    cut_plan::FUNCTIONS,
];

/// Every function, in the order of the numbers.
pub fn functions() -> impl Iterator<Item = &'static dyn Function> {
    TABLES.into_iter().flatten().copied()
}

/// The number of the function that a request asks.
pub fn number_of(request: &[u8]) -> Option<u8> {
    Args::new(request).take()
}

/// The function that a request asks.
pub fn function_of(request: &[u8]) -> Option<&'static dyn Function> {
    let number = number_of(request)?;
    let table = TABLES.get(usize::from(number >> 4))?;
    table.iter().copied().find(|function| function.number() == number)
}

/// Puts the Rust's answer to a request.
pub fn answer(request: &[u8], answer: &mut Line) -> io::Result<()> {
    answer_if_sound(request, answer).ok_or_else(|| {
        let request = String::from_utf8_lossy(request);
        io::Error::other(format!("malformed request {request}"))
    })
}

fn answer_if_sound(request: &[u8], answer: &mut Line) -> Option<()> {
    let function = function_of(request)?;
    let mut args = Args::new(request);
    args.take::<u8>()?;
    function.answer(&mut args, answer)
}
