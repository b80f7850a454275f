//! Each operation as one block: its inputs, and how the library and the
//! evaluator are asked.

use super::generate::{self, Rng, Trace};
use super::types::{Letter, Refusal};
use super::{borders, library, oracle, Line, Operation, Report, Value};
use std::io::Write;
use std::process::{Command, Stdio};

/// Random inputs of an operation, next to the fixed ones.
const INPUTS: usize = 120_000;
/// Random whole inputs.
const RUNS: usize = 2_400;
/// Trace lines of the longest whole input.
const LONG_RUN: usize = 100_000;

/// All operations of the library.
pub const ALL: [fn(&mut Report); 11] = [
    psl_check,
    ltl_check,
    psl_verdict,
    ltl_verdict,
    translation,
    both_verdicts,
    letter_of_a_moment,
    rest_of_a_list,
    formula_line,
    trace_line,
    node_line,
];

// ---------------------------------------------------------------- tables

fn psl_check(report: &mut Report) {
    report.compare(Operation {
        name: "psl check",
        refusals: &[1, 2, 3, 4, 5, 6, 7, 8],
        fixed: borders::psl_tables(),
        count: INPUTS,
        random: generate::any_psl_table,
        done: [library::check_psl, oracle::check_psl],
        ask: |check, table, _| check(table),
    });
}

fn ltl_check(report: &mut Report) {
    report.compare(Operation {
        name: "ltl check",
        refusals: &[11, 12, 13, 14, 15],
        fixed: borders::ltl_tables(),
        count: INPUTS,
        random: generate::any_ltl_table,
        done: [library::check_ltl, oracle::check_ltl],
        ask: |check, table, _| check(table),
    });
}

/// A table from one of two generators, and any trace.
fn judged(rng: &mut Rng, tables: [fn(&mut Rng) -> Vec<u16>; 2]) -> (Vec<u16>, Trace) {
    let table = rng.pick(&tables)(rng);
    (table, generate::any_trace(rng))
}

fn psl_verdict(report: &mut Report) {
    report.compare(Operation {
        name: "psl verdict",
        refusals: &[1, 2, 3, 4, 5, 6, 7, 8, 9],
        fixed: borders::psl_verdicts(),
        count: INPUTS,
        random: |rng| judged(rng, [generate::some_psl_table, generate::any_psl_table]),
        done: [library::psl_verdict, oracle::psl_verdict],
        ask: |judge, (table, (lead, cycle)), _| judge(table, lead, cycle),
    });
}

fn ltl_verdict(report: &mut Report) {
    report.compare(Operation {
        name: "ltl verdict",
        refusals: &[9, 11, 12, 13, 14, 15, 16],
        fixed: borders::ltl_verdicts(),
        count: INPUTS,
        random: |rng| judged(rng, [generate::some_ltl_table, generate::any_ltl_table]),
        done: [library::ltl_verdict, oracle::ltl_verdict],
        ask: |judge, (table, (lead, cycle)), _| judge(table, lead, cycle),
    });
}

fn translation(report: &mut Report) {
    report.compare(Operation {
        name: "translation",
        refusals: &[1, 2, 3, 4, 5, 6, 7, 8, 10],
        fixed: borders::translations(),
        count: INPUTS,
        random: |rng| {
            let table = generate::any_psl_table(rng);
            let mut out = [0; 3 * oracle::MAX_LTL_NODES];
            let size = oracle::translate(&table, &mut out).unwrap_or(8);
            (table, generate::space(rng, 3 * size))
        },
        done: [library::translate, oracle::translate],
        ask: |translate, (table, space), lent| translate(table, lent.numbers(*space)),
    });
}

/// The LTL verdict on what the library's translation leaves.
fn verdict_of_translation(
    table: &[u16],
    lead: &[Letter],
    cycle: &[Letter],
) -> Result<bool, Refusal> {
    let mut out = [0; 3 * oracle::MAX_LTL_NODES];
    let size = library::translate(table, &mut out)?;
    library::ltl_verdict(&out[..3 * size], lead, cycle)
}

fn both_verdicts(report: &mut Report) {
    report.compare(Operation {
        name: "ltl verdict of the translation as psl verdict",
        refusals: &[],
        fixed: Vec::new(),
        count: INPUTS,
        random: |rng| {
            let letters = match rng.below(12) {
                0 => 64,
                1 => rng.between(9, 63),
                _ => rng.between(1, 8),
            };
            let table = generate::accepted_psl_table(rng);
            (table, generate::trace_of(rng, letters))
        },
        done: [verdict_of_translation, library::psl_verdict],
        ask: |judge, (table, (lead, cycle)), _| judge(table, lead, cycle),
    });
}

// ---------------------------------------------------------------- traces

/// The evaluator's letter, put into the lent place.
fn letter_put(
    lead: &[Letter],
    cycle: &[Letter],
    moment: usize,
    letter: &mut Letter,
) -> Result<(), Refusal> {
    *letter = oracle::letter_at(lead, cycle, moment)?;
    Ok(())
}

fn letter_of_a_moment(report: &mut Report) {
    report.compare(Operation {
        name: "letter of a moment",
        refusals: &[25],
        fixed: Vec::new(),
        count: INPUTS,
        random: generate::moment_of_trace,
        done: [library::letter_at, letter_put],
        ask: |letter_at, ((lead, cycle), moment), lent| {
            let [letter, _] = lent.letters([1, 0]);
            letter_at(lead, cycle, *moment, &mut letter[0])
        },
    });
}

/// The evaluator's part, of which as many letters are copied as have room.
fn rest_copied(lead: &[Letter], cycle: &[Letter], moment: usize, out: &mut [Letter]) -> usize {
    let part = oracle::rest(lead, cycle, moment);
    for (place, letter) in out.iter_mut().zip(part) {
        *place = *letter;
    }
    part.len()
}

fn rest_of_a_list(report: &mut Report) {
    report.compare(Operation {
        name: "rest of a list",
        refusals: &[],
        fixed: Vec::new(),
        count: INPUTS,
        random: |rng| {
            let ((lead, cycle), moment) = generate::moment_of_trace(rng);
            let enough = oracle::rest(&lead, &cycle, moment).len();
            (lead, cycle, moment, generate::space(rng, enough))
        },
        done: [library::rest, rest_copied],
        ask: |rest, (lead, cycle, moment, space), lent| {
            let [out, _] = lent.letters([*space, 0]);
            Ok(rest(lead, cycle, *moment, out))
        },
    });
}

// ----------------------------------------------------------------- lines

fn formula_line(report: &mut Report) {
    report.compare(Operation {
        name: "formula line",
        refusals: &[17, 18, 19, 20, 23],
        fixed: borders::formula_lines(),
        count: INPUTS,
        random: |rng| {
            let line = generate::any_formula_line(rng);
            let mut out = [0; 3 * oracle::MAX_PSL_NODES];
            let nodes = oracle::read_formula(&line, &mut out).unwrap_or(8);
            (Line(line), generate::space(rng, 3 * nodes))
        },
        done: [library::read_formula, oracle::read_formula],
        ask: |read, (line, space), lent| read(&line.0, lent.numbers(*space)),
    });
}

fn trace_line(report: &mut Report) {
    report.compare(Operation {
        name: "trace line",
        refusals: &[17, 18, 21, 22, 23],
        fixed: borders::trace_lines(),
        count: INPUTS,
        random: |rng| {
            let line = generate::any_trace_line(rng);
            let mut out = [[0; 64]; 2];
            let [lead, cycle] = &mut out;
            let (lead, cycle) = oracle::read_trace(&line, lead, cycle).unwrap_or((3, 3));
            let spaces = match rng.below(3) {
                0 => [generate::space(rng, lead), generate::space(rng, cycle)],
                1 => [64, 64],
                _ => [lead, cycle],
            };
            (Line(line), spaces)
        },
        done: [library::read_trace, oracle::read_trace],
        ask: |read, (line, spaces), lent| {
            let [lead, cycle] = lent.letters(*spaces);
            read(&line.0, lead, cycle)
        },
    });
}

fn node_line(report: &mut Report) {
    report.compare(Operation {
        name: "node line",
        refusals: &[11, 12, 13, 14, 15, 24],
        fixed: borders::node_lines(),
        count: INPUTS,
        random: |rng| {
            let [own, kind, left, right] = generate::any_node(rng);
            let mut out = [0; 64];
            let length = oracle::write_node(own, kind, left, right, &mut out).unwrap_or(9);
            ([own, kind, left, right], generate::space(rng, length))
        },
        done: [library::write_node, oracle::write_node],
        ask: |write, ([own, kind, left, right], space), lent| {
            write(*own, *kind, *left, *right, lent.bytes(*space))
        },
    });
}

// --------------------------------------------------------------- program

impl Value for Line {
    fn name(&self) -> &'static str {
        let stopped = self.0.starts_with(b"(refused 1 ");
        ["run", "line 1 refused"][stopped as usize]
    }
}

/// Runs the program on an input handed over in pieces of this size, and
/// returns what it prints; none if it could not be run to its end.
fn program_output(program: &str, input: &[u8], piece: usize) -> Option<Vec<u8>> {
    let mut child = Command::new(program)
        .stdin(Stdio::piped())
        .stdout(Stdio::piped())
        .spawn()
        .ok()?;
    let mut stdin = child.stdin.take()?;
    let output = std::thread::scope(|scope| {
        scope.spawn(move || {
            // A program that has refused line 1 may have stopped reading.
            for part in input.chunks(piece) {
                if stdin.write_all(part).is_err() {
                    break;
                }
            }
        });
        child.wait_with_output()
    });
    let output = output.ok()?;
    output.status.code().map(|_| output.stdout)
}

/// A whole input and the size of the pieces it is handed over in.
fn any_run(rng: &mut Rng) -> (Line, usize) {
    let traces = if rng.once_in(40) {
        rng.between(200, 3000)
    } else {
        rng.below(7)
    };
    let input = generate::whole_input(rng, traces);
    let piece = if input.len() < 2000 && rng.once_in(8) {
        rng.between(1, 40)
    } else {
        1 << 20
    };
    (Line(input), piece)
}

pub fn compare_program(report: &mut Report, program: String) {
    let long = generate::whole_input(&mut Rng::new(report.seed), LONG_RUN);
    let inputs = borders::inputs().into_iter().chain([long]);
    let by_program = |input: &[u8], piece| program_output(&program, input, piece);
    let by_evaluator = |input: &[u8], _| Some(oracle::run(input));
    report.compare(Operation {
        name: "program",
        refusals: &[],
        fixed: inputs.map(|input| (Line(input), 1 << 20)).collect(),
        count: RUNS,
        random: any_run,
        done: [
            &by_program as &dyn Fn(&[u8], usize) -> Option<Vec<u8>>,
            &by_evaluator,
        ],
        ask: |run, (input, piece), _| {
            let failed = || b"(the program failed)".to_vec();
            Ok(Line(run(&input.0, *piece).unwrap_or_else(failed)))
        },
    });
}
