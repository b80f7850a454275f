//! Measures the library against the plain evaluator and a bit-parallel one,
//! in one run, as one table of ratios. Before a row is timed, the three have
//! to answer each of its inputs alike, and to leave alike what is lent.
//!
//!     ./build bench reference
//!     ./bench [PROGRAM REFERENCE]
//!
//! With the two programs given, both are timed on one long input.

mod generate;
mod library;
mod oracle;
mod parallel;
mod types;

use generate::{chain, translated, Rng, Trace};
use std::fmt::Debug;
use std::fs::File;
use std::hint::black_box;
use std::path::Path;
use std::process::{Command, Stdio};
use std::time::Instant;
use types::Letter;

const SEED: u64 = 30;
/// Timed rounds a row; a row's time is their median. Many short rounds keep
/// the median clear of those in which another process had the core.
const ROUNDS: usize = 151;
/// Least seconds of a round for one contender.
const ROUND_SECONDS: f64 = 0.0002;
/// Inputs a typical row goes through in turn.
const INPUTS: usize = 128;
/// Trace lines of the long input.
const TRACE_LINES: usize = 100_000;
const PROGRAM_ROUNDS: usize = 11;

// ------------------------------------------------------------- measuring

/// What does an operation: an input and lent lists in, an answer out. None
/// stands for a refusal, which no input of the benchmark meets.
type Contender<I, L, T> = fn(&I, &mut L) -> Option<T>;

/// Ours, plain, parallel.
type Contenders<I, L, T> = [Contender<I, L, T>; 3];

fn pass<I, L, T>(inputs: &[I], lists: &mut L, contender: Contender<I, L, T>) {
    for input in inputs {
        black_box(contender(black_box(input), lists));
    }
}

fn median(mut times: Vec<f64>) -> f64 {
    times.sort_by(f64::total_cmp);
    times[times.len() / 2]
}

/// Passes that take a contender at least one round's time.
fn passes<I, L, T>(inputs: &[I], lists: &mut L, contender: Contender<I, L, T>) -> usize {
    let mut count = 1;
    loop {
        let start = Instant::now();
        for _ in 0..count {
            pass(inputs, lists, contender);
        }
        let seconds = start.elapsed().as_secs_f64();
        if seconds >= ROUND_SECONDS {
            return count;
        }
        count = 1 + (count as f64 * (1.1 * ROUND_SECONDS / seconds.max(1e-7)).min(10.0)) as usize;
    }
}

/// All contenders answer every input, alike.
fn compare<I, L, T>(name: &str, inputs: &[I], lists: &L, contenders: Contenders<I, L, T>)
where
    L: Clone + PartialEq,
    T: PartialEq + Debug,
{
    for (place, input) in inputs.iter().enumerate() {
        let [ours, plain, parallel] = contenders.map(|contender| {
            let mut lists = lists.clone();
            (contender(input, &mut lists), lists)
        });
        let alike = ours == plain && ours == parallel;
        assert!(
            alike && ours.0.is_some(),
            "{name}, input {place}: answered by {:?}, or the lent lists differ",
            [ours.0, plain.0, parallel.0]
        );
    }
}

/// Median seconds of a pass of each contender, the contenders in turn.
fn seconds<I, L: Clone, T>(inputs: &[I], lists: &L, contenders: Contenders<I, L, T>) -> [f64; 3] {
    let mut lists = [(); 3].map(|_| lists.clone());
    let mut counts = [0; 3];
    let mut times = [(); 3].map(|_| Vec::new());
    for (place, contender) in contenders.into_iter().enumerate() {
        counts[place] = passes(inputs, &mut lists[place], contender);
    }
    for _ in 0..ROUNDS {
        for (place, contender) in contenders.into_iter().enumerate() {
            let start = Instant::now();
            for _ in 0..counts[place] {
                pass(inputs, &mut lists[place], contender);
            }
            times[place].push(start.elapsed().as_secs_f64() / counts[place] as f64);
        }
    }
    times.map(median)
}

/// A row in nanoseconds a call, or where the inputs have bytes in megabytes a
/// second.
fn row<I, L, T>(
    name: &str,
    inputs: &[I],
    bytes: Option<usize>,
    lists: L,
    contenders: Contenders<I, L, T>,
) where
    L: Clone + PartialEq,
    T: PartialEq + Debug,
{
    compare(name, inputs, &lists, contenders);
    let times = seconds(inputs, &lists, contenders);
    let (unit, figures) = match bytes {
        Some(bytes) => ("MB/s", times.map(|time| bytes as f64 / time / 1e6)),
        None => ("ns", times.map(|time| time * 1e9 / inputs.len() as f64)),
    };
    print_row(name, unit, figures.map(Some), times.map(Some));
}

fn print_columns(columns: [&str; 7]) {
    let [name, unit, ours, plain, parallel, first, second] = columns;
    println!("{name:<52} {unit:>5} {ours:>10} {plain:>10} {parallel:>10} {first:>10} {second:>13}");
}

/// Prints a row: three figures, then ratios of the times.
fn print_row(name: &str, unit: &str, figures: [Option<f64>; 3], times: [Option<f64>; 3]) {
    let shown = |value: Option<f64>, digits| {
        value.map_or("-".to_string(), |value| format!("{value:.digits$}"))
    };
    let [ours, plain, parallel] = figures.map(|figure| shown(figure, 1));
    let [_, first, second] = times.map(|other| {
        let ratio = times[0].zip(other).map(|(ours, other)| ours / other);
        shown(ratio, 2)
    });
    print_columns([name, unit, &ours, &plain, &parallel, &first, &second]);
}

// ---------------------------------------------------------------- inputs

/// A table with the trace it is judged on.
type Judged = (Vec<u16>, Trace);

/// How long lead-in and cycle are.
type Lengths = (usize, usize);

const TYPICAL_FINITE: Lengths = (20, 0);
const TYPICAL_LASSO: Lengths = (8, 12);
const LARGEST_FINITE: Lengths = (64, 0);
const LARGEST_LASSO: Lengths = (24, 40);

/// A trace of three signals.
fn trace(rng: &mut Rng, (lead, cycle): Lengths) -> Trace {
    let mut letters =
        |count: usize| -> Vec<Letter> { (0..count).map(|_| rng.below(8) as Letter).collect() };
    (letters(lead), letters(cycle))
}

/// The same table on three signals; var is kind 1 of both tables.
fn of_three_signals(mut table: Vec<u16>) -> Vec<u16> {
    for triple in table.chunks_exact_mut(3) {
        if triple[0] == oracle::PSL_VAR {
            triple[1] %= 3;
        }
    }
    table
}

/// A PSL table as a line gives it, at least half of its nodes formulas.
fn psl_table(rng: &mut Rng, nodes: usize) -> Vec<u16> {
    loop {
        let table = of_three_signals(generate::psl_table(rng, nodes));
        let kinds = table.iter().step_by(3);
        if 2 * kinds.filter(|&&kind| kind >= oracle::PSL_WEAK).count() >= nodes {
            return table;
        }
    }
}

struct Tables {
    psl_typical: Vec<Vec<u16>>,
    psl_largest: Vec<Vec<u16>>,
    nexts: Vec<Vec<u16>>,
    ltl_typical: Vec<Vec<u16>>,
    ltl_nexts: Vec<Vec<u16>>,
    ltl_largest: Vec<Vec<u16>>,
}

impl Tables {
    fn new(rng: &mut Rng) -> Tables {
        let psl_typical: Vec<_> = (0..INPUTS).map(|_| psl_table(rng, 30)).collect();
        let nexts = vec![chain(oracle::MAX_PSL_NODES, oracle::PSL_NEXT)];
        let all = |tables: &[Vec<u16>]| tables.iter().map(|table| translated(table)).collect();
        Tables {
            ltl_typical: all(&psl_typical),
            ltl_nexts: all(&nexts),
            psl_largest: (0..8).map(|_| psl_table(rng, 1024)).collect(),
            ltl_largest: (0..4)
                .map(|_| of_three_signals(generate::ltl_table(rng, 4096)))
                .collect(),
            psl_typical,
            nexts,
        }
    }
}

/// A typical trace line, finite and lasso in turn.
fn trace_line(rng: &mut Rng, place: usize) -> Vec<u8> {
    let (lead, cycle) = trace(rng, [TYPICAL_FINITE, TYPICAL_LASSO][place % 2]);
    generate::spell_trace(&lead, &cycle)
}

// ------------------------------------------------------------------ rows

const LTL_VERDICT: Contenders<Judged, (), bool> = [
    |(table, (lead, cycle)), _| library::ltl_verdict(table, lead, cycle).ok(),
    |(table, (lead, cycle)), _| oracle::plain_ltl_verdict(table, lead, cycle),
    |(table, (lead, cycle)), _| parallel::ltl_verdict(table, lead, cycle),
];

const PSL_VERDICT: Contenders<Judged, (), bool> = [
    |(table, (lead, cycle)), _| library::psl_verdict(table, lead, cycle).ok(),
    |(table, (lead, cycle)), _| oracle::plain_psl_verdict(table, lead, cycle),
    |(table, (lead, cycle)), _| parallel::psl_verdict(table, lead, cycle),
];

fn verdict_rows(rng: &mut Rng, tables: &Tables) {
    let (ltl, psl) = (LTL_VERDICT, PSL_VERDICT);
    let typical = [("finite", TYPICAL_FINITE), ("lasso", TYPICAL_LASSO)];
    let largest = [("finite", LARGEST_FINITE), ("lasso", LARGEST_LASSO)];
    for (name, tables, traces, contenders) in [
        (
            "LTL verdict, 4,094 nodes (nexts)",
            &tables.ltl_nexts,
            largest,
            ltl,
        ),
        (
            "LTL verdict, 4,096 nodes (mixed)",
            &tables.ltl_largest,
            largest,
            ltl,
        ),
        ("LTL verdict, typical", &tables.ltl_typical, typical, ltl),
        ("PSL verdict, typical", &tables.psl_typical, typical, psl),
        (
            "PSL verdict, 1,024 nodes",
            &tables.psl_largest,
            largest,
            psl,
        ),
    ] {
        for (sort, lengths) in traces {
            let judged = |table: &Vec<u16>| (table.clone(), trace(rng, lengths));
            let inputs: Vec<Judged> = tables.iter().map(judged).collect();
            row(&format!("{name}, {sort}"), &inputs, None, (), contenders);
        }
    }
}

fn check_rows(tables: &Tables) {
    let psl: Contenders<Vec<u16>, (), ()> = [
        |table, _| library::check_psl(table).ok(),
        |table, _| oracle::check_psl(table).ok(),
        |table, _| parallel::check_psl(table),
    ];
    let ltl: Contenders<Vec<u16>, (), ()> = [
        |table, _| library::check_ltl(table).ok(),
        |table, _| oracle::check_ltl(table).ok(),
        |table, _| parallel::check_ltl(table),
    ];
    for (name, inputs, contenders) in [
        ("PSL check, typical", &tables.psl_typical, psl),
        ("PSL check, 1,024 nodes", &tables.psl_largest, psl),
        ("LTL check, typical", &tables.ltl_typical, ltl),
        ("LTL check, 4,094 nodes (nexts)", &tables.ltl_nexts, ltl),
        ("LTL check, 4,096 nodes (mixed)", &tables.ltl_largest, ltl),
    ] {
        row(name, inputs, None, (), contenders);
    }
}

fn translation_rows(tables: &Tables) {
    for (name, inputs) in [
        ("translation, typical", &tables.psl_typical),
        ("translation, to 4,094 nodes (nexts)", &tables.nexts),
        ("translation, 1,024 nodes", &tables.psl_largest),
    ] {
        row(
            name,
            inputs,
            None,
            vec![0; 3 * oracle::MAX_LTL_NODES],
            [
                |table, out| library::translate(table, out).ok(),
                |table, out| oracle::translate(table, out).ok(),
                |table, out| parallel::translate(table, out),
            ],
        );
    }
}

fn formula_line_rows(tables: &Tables) {
    for (name, tables) in [
        ("formula lines, typical", &tables.psl_typical),
        ("formula lines, 1,024 nodes", &tables.psl_largest),
    ] {
        let lines: Vec<_> = tables.iter().map(|table| generate::spell(table)).collect();
        row(
            name,
            &lines,
            Some(lines.concat().len()),
            vec![0; 3 * oracle::MAX_PSL_NODES],
            [
                |line, out| library::read_formula(line, out).ok(),
                |line, out| oracle::read_formula(line, out).ok(),
                |line, out| parallel::read_formula(line, out),
            ],
        );
    }
}

fn trace_line_rows(rng: &mut Rng) {
    let typical: Vec<_> = (0..INPUTS).map(|place| trace_line(rng, place)).collect();
    let mut wide = |_| {
        let letters: Vec<Letter> = (0..64).map(|_| rng.next() as u32 as Letter).collect();
        generate::spell_trace(&letters[..24], &letters[24..])
    };
    let wide: Vec<_> = (0..INPUTS).map(&mut wide).collect();
    for (name, lines) in [
        ("trace lines, typical", typical),
        ("trace lines, 64 letters of 32 signals", wide),
    ] {
        row(
            name,
            &lines,
            Some(lines.concat().len()),
            ([0; 64], [0; 64]),
            [
                |line, (lead, cycle)| library::read_trace(line, lead, cycle).ok(),
                |line, (lead, cycle)| oracle::read_trace(line, lead, cycle).ok(),
                |line, (lead, cycle)| parallel::read_trace(line, lead, cycle),
            ],
        );
    }
}

fn node_line_row(tables: &Tables) {
    let nodes: Vec<[u16; 4]> = tables.ltl_largest[0]
        .chunks_exact(3)
        .zip(0..)
        .map(|(triple, own)| [own, triple[0], triple[1], triple[2]])
        .collect();
    row(
        "node line, of 4,096 nodes (mixed)",
        &nodes,
        None,
        [0; 32],
        [
            |n, out| library::write_node(n[0], n[1], n[2], n[3], out).ok(),
            |n, out| oracle::write_node(n[0], n[1], n[2], n[3], out).ok(),
            |n, out| parallel::write_node(n[0], n[1], n[2], n[3], out),
        ],
    );
}

// -------------------------------------------------------------- programs

fn long_input(rng: &mut Rng, tables: &Tables) -> Vec<u8> {
    let mut input = generate::spell(&tables.psl_typical[0]);
    input.push(b'\n');
    for place in 0..TRACE_LINES {
        input.extend(trace_line(rng, place));
        input.push(b'\n');
    }
    input
}

/// Seconds of one run of a program from a file to nowhere.
fn program_seconds(program: &str, input: &Path) -> std::io::Result<f64> {
    let start = Instant::now();
    let status = Command::new(program)
        .stdin(File::open(input)?)
        .stdout(Stdio::null())
        .status()?;
    let seconds = start.elapsed().as_secs_f64();
    assert!(status.success(), "{} failed", program);
    Ok(seconds)
}

fn program_output(program: &str, input: &Path) -> std::io::Result<Vec<u8>> {
    let output = Command::new(program).stdin(File::open(input)?).output()?;
    Ok(output.stdout)
}

fn program_row(ours: &str, reference: &str, input: &Path) -> std::io::Result<()> {
    let same = program_output(ours, input)? == program_output(reference, input)?;
    assert!(same, "the programs print differently");
    let mut times = [Vec::new(), Vec::new()];
    for _ in 0..PROGRAM_ROUNDS {
        times[0].push(program_seconds(ours, input)?);
        times[1].push(program_seconds(reference, input)?);
    }
    let [ours, reference] = times.map(median);
    let figures = [Some(ours * 1e3), None, Some(reference * 1e3)];
    let name = "whole program, 100,000 typical trace lines";
    print_row(name, "ms", figures, figures);
    Ok(())
}

fn measure_programs(rng: &mut Rng, tables: &Tables, ours: &str, reference: &str) {
    let name = format!("trace-lines-{}.txt", std::process::id());
    let path = std::env::temp_dir().join(name);
    let measured = std::fs::write(&path, long_input(rng, tables))
        .and_then(|_| program_row(ours, reference, &path));
    let _ = std::fs::remove_file(&path);
    measured.expect("the two programs run");
}

/// Frees one large block: from then on the allocator keeps what is freed, and
/// no contender pays for pages handed to and fro.
fn settle_allocator() {
    drop(black_box(vec![1u8; 1 << 24]));
}

fn main() {
    settle_allocator();
    let rng = &mut Rng::new(SEED);
    let tables = Tables::new(rng);
    println!(
        "Time of a call: median of {} rounds, the contenders in turn, {} inputs in a typical row.",
        ROUNDS, INPUTS
    );
    println!("ours: the library; plain: the separately written evaluator, a byte a truth; parallel: bit-parallel Rust.");
    println!("typical: 30 PSL nodes, 3 signals, 20 letters; verdicts on large tables: 64 letters.");
    println!("Ratios are of times: below 1, ours is the faster.");
    print_columns([
        "",
        "unit",
        "ours",
        "plain",
        "parallel",
        "ours/plain",
        "ours/parallel",
    ]);
    verdict_rows(rng, &tables);
    check_rows(&tables);
    translation_rows(&tables);
    formula_line_rows(&tables);
    trace_line_rows(rng);
    node_line_row(&tables);
    let arguments: Vec<String> = std::env::args().skip(1).collect();
    if let [ours, reference] = &arguments[..] {
        measure_programs(rng, &tables, ours, reference);
    }
}
