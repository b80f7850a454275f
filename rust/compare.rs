//! Compares the library with a separately written evaluator: every operation
//! on fixed and random inputs, refusals by number and place; what the
//! translator promises by running both verdicts; and the built program on
//! whole inputs.
//!
//!     ./build compare
//!     ./compare [SEED] [PROGRAM]

mod borders;
mod generate;
mod library;
mod operations;
mod oracle;
mod types;

use generate::Rng;
use std::collections::{BTreeMap, BTreeSet};
use std::fmt::{self, Debug, Formatter};
use std::time::Instant;
use types::{Letter, Refusal};

const DEFAULT_SEED: u64 = 20_011_102;
/// Differing inputs shown for each operation.
const SHOWN: usize = 3;
/// How often a refusal of an operation is to occur at least.
const LEAST: usize = 300;
/// At how many places it is to occur at least, where it carries one.
const LEAST_PLACES: usize = 30;
/// Places on each side of a lent list that belong to nobody.
const MARGIN: usize = 4;

// ----------------------------------------------------------------- lists

/// The lists lent to an operation, filled with what equal seeds make equal,
/// margins included.
#[derive(PartialEq, Debug)]
pub struct Lent {
    seed: u64,
    numbers: Vec<u16>,
    bytes: Vec<u8>,
    letters: [Vec<Letter>; 2],
}

impl Lent {
    fn new(seed: u64) -> Lent {
        Lent {
            seed,
            numbers: Vec::new(),
            bytes: Vec::new(),
            letters: [Vec::new(), Vec::new()],
        }
    }

    pub fn numbers(&mut self, space: usize) -> &mut [u16] {
        filled(&mut self.numbers, space, self.seed, |bits| bits as u16)
    }

    pub fn bytes(&mut self, space: usize) -> &mut [u8] {
        filled(&mut self.bytes, space, self.seed, |bits| bits as u8)
    }

    pub fn letters(&mut self, spaces: [usize; 2]) -> [&mut [Letter]; 2] {
        let [first, second] = &mut self.letters;
        [
            filled(first, spaces[0], self.seed, |bits| bits as Letter),
            filled(second, spaces[1], !self.seed, |bits| bits as Letter),
        ]
    }
}

/// Fills a list and its margins, and returns the part between them.
fn filled<T>(list: &mut Vec<T>, space: usize, seed: u64, value: fn(u64) -> T) -> &mut [T] {
    let mut rng = Rng::new(seed);
    list.extend((0..space + 2 * MARGIN).map(|_| value(rng.next())));
    &mut list[MARGIN..MARGIN + space]
}

/// A line or a text, shown as one.
#[derive(PartialEq, Clone)]
pub struct Line(pub Vec<u8>);

impl Debug for Line {
    fn fmt(&self, out: &mut Formatter) -> fmt::Result {
        write!(out, "\"{}\"", self.0.escape_ascii())
    }
}

// ------------------------------------------------------------ comparison

/// What an operation answers where it refuses nothing.
pub trait Value: PartialEq + Debug {
    /// What it is counted as.
    fn name(&self) -> &'static str {
        "accepted"
    }
}

impl Value for () {}
impl Value for usize {}
impl Value for (usize, usize) {}
impl Value for Letter {}

impl Value for bool {
    fn name(&self) -> &'static str {
        ["no", "yes"][*self as usize]
    }
}

/// One operation with inputs of type `I`, done by functions of type `F`.
pub struct Operation<I, F, T> {
    pub name: &'static str,
    /// The refusals that have to occur.
    pub refusals: &'static [u8],
    pub fixed: Vec<I>,
    /// How many random inputs follow the fixed ones.
    pub count: usize,
    pub random: fn(&mut Rng) -> I,
    /// Done by the library or the program, and by the evaluator.
    pub done: [F; 2],
    /// Has an input answered.
    pub ask: fn(&F, &I, &mut Lent) -> Result<T, Refusal>,
}

/// How often an answer was due, and at which places.
#[derive(Default)]
struct Due {
    times: usize,
    places: BTreeSet<usize>,
}

/// Each answer that was due: the number of a refusal, or 0 and what the answer
/// is counted as.
type Answers = BTreeMap<(u8, &'static str), Due>;

/// What is counted over all operations.
pub struct Report {
    seed: u64,
    passed: usize,
    failed: usize,
}

impl Report {
    /// Has all inputs of an operation answered by both.
    pub fn compare<I: Debug, F, T: Value>(&mut self, operation: Operation<I, F, T>) {
        let name = operation.name;
        let start = Instant::now();
        let mut rng = Rng::new(self.seed);
        let mut answers = Answers::new();
        let mut differ = 0;
        let random = (0..operation.count).map(|_| (operation.random)(&mut rng));
        for (input, seed) in operation.fixed.into_iter().chain(random).zip(self.seed..) {
            let [got, due] = operation.done.each_ref().map(|by| {
                let mut lent = Lent::new(seed);
                ((operation.ask)(by, &input, &mut lent), lent)
            });
            count(&mut answers, &due.0);
            if got != due {
                differ += 1;
                if differ <= SHOWN {
                    println!("DIFFERS {}: {}", name, shown(&input, &got, &due));
                }
            }
        }
        self.note(name, differ, &answers, start);
        self.expect(name, operation.refusals, &answers);
    }

    /// Prints the line of an operation and adds to the totals.
    fn note(&mut self, name: &str, differ: usize, answers: &Answers, start: Instant) {
        let inputs: usize = answers.values().map(|due| due.times).sum();
        let seconds = start.elapsed().as_secs_f64();
        print!("{name}: {inputs} inputs, {differ} differ, {seconds:.1} s;");
        for ((number, answer), Due { times, places }) in answers {
            match (number, places.len()) {
                (0, _) => print!(" {answer}: {times}"),
                (_, 0) => print!(" {answer} {number}: {times}"),
                (_, many) => print!(" {answer} {number}: {times} at {many} places"),
            }
        }
        println!();
        self.passed += inputs - differ;
        self.failed += differ;
    }

    /// A refusal that hardly occurs is hardly compared, and so is its place.
    fn expect(&mut self, name: &str, refusals: &[u8], answers: &Answers) {
        let none = Due::default();
        for &number in refusals {
            let Due { times, places } = answers.get(&(number, "refusal")).unwrap_or(&none);
            let places = places.len();
            if *times < LEAST || (1..LEAST_PLACES).contains(&places) {
                println!(
                    "TOO FEW {name}: refusal {number} occurred {times} times, at {places} places"
                );
                self.failed += 1;
            }
        }
    }
}

/// Counts an answer that was due.
fn count<T: Value>(answers: &mut Answers, answer: &Result<T, Refusal>) {
    let (what, place) = match answer {
        Ok(value) => ((0, value.name()), None),
        Err(refusal) => ((refusal.number, "refusal"), refusal.place),
    };
    let due = answers.entry(what).or_default();
    due.times += 1;
    due.places.extend(place);
}

/// An input, and both outcomes around the first place in which they differ.
fn shown<I: Debug, O: Debug>(input: &I, got: &O, due: &O) -> String {
    let (got, due) = (format!("{:?}", got), format!("{:?}", due));
    let same = got.bytes().zip(due.bytes()).take_while(|(a, b)| a == b);
    let from = same.count().saturating_sub(80);
    let part = |text: &str| text.chars().skip(from).take(240).collect::<String>();
    let input: String = format!("{:?}", input).chars().take(800).collect();
    format!("{}\n  got ..{}\n  due ..{}", input, part(&got), part(&due))
}

fn main() {
    let mut report = Report {
        seed: DEFAULT_SEED,
        passed: 0,
        failed: 0,
    };
    let mut program = None;
    for argument in std::env::args().skip(1) {
        match argument.parse() {
            Ok(number) => report.seed = number,
            Err(_) => program = Some(argument),
        }
    }
    println!("seed {}", report.seed);
    for compare in operations::ALL {
        compare(&mut report);
    }
    match program {
        Some(program) => operations::compare_program(&mut report, program),
        None => println!("program: not given, not run"),
    }
    let Report { passed, failed, .. } = report;
    println!("compare: {} passed, {} failed", passed, failed);
    if failed > 0 {
        std::process::exit(1);
    }
}
