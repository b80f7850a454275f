//! Fixed inputs of each operation: the sentences with known verdicts, small
//! inputs in full, limits and one beyond, and every change of a byte of some
//! lines.

use super::generate::{chain, spell, spell_trace, translated, Trace};
use super::types::Letter;
use super::{oracle, Line};

/// The formulas of the sentences with known verdicts, and some that every
/// kind takes part in.
const FORMULAS: [&str; 22] = [
    "(psl (weak (var 0)))",
    "(psl (strong (var 0)))",
    "(psl (not (weak (var 0))))",
    "(psl (weak (bnot (var 0))))",
    "(psl (next (weak true)))",
    "(psl (not (next (not (weak (var 0))))))",
    "(psl (until (strong true) (strong (var 0))))",
    "(psl (abort (strong (bnot true)) true))",
    "(psl (not (abort (next (strong (var 1))) (var 0))))",
    "(psl (abort (not (abort (strong true) (var 0))) (var 0)))",
    "(psl (next (until (strong (var 0)) (strong (var 1)))))",
    "(psl (until (weak (var 0)) (strong (var 1))))",
    "(psl (and (weak (var 0)) (next (strong (var 1)))))",
    "(psl (until (next (weak (var 0))) (and (strong (var 1)) (next (strong (var 0))))))",
    "(psl (not (until (not (weak (var 0))) (not (next (weak (var 1)))))))",
    "(psl (abort (until (weak (var 0)) (strong (var 1))) (band (var 0) (bnot (var 1)))))",
    "(psl (until (abort (next (strong (var 0))) (var 1)) (strong (bnot (var 0)))))",
    "(psl (not (abort (not (until (strong (var 0)) (next (weak (var 1))))) (var 1))))",
    "(psl (abort (abort (next (next (strong (var 0)))) (var 1)) (bnot (var 0))))",
    "(psl (next (next (not (next (strong (var 1)))))))",
    "(psl (and (not (strong (var 31))) (abort (weak (band true (var 30))) (bnot true))))",
    "(psl (not (until (weak true) (not (abort (next (weak (var 0))) (band (var 0) (var 1)))))))",
];

/// A line with every short form.
const SHORT: &str = "(psl (or (implies (before (wnext (weak true)) (strong (var 1))) (weak true)) \
    (iff (eventually (weak true)) (wuntil (always (weak true)) (abort (weak true) true)))))";

const TRACES: [&str; 7] = [
    "(finite)",
    "(finite 0)",
    "(finite 4294967295 10 305419896 0)",
    "(lasso () (2))",
    "(lasso () (0 1))",
    "(lasso (7) (4294967295))",
    "(lasso (1 20 300) (40 5))",
];

// ---------------------------------------------------------------- tables

fn table_of(line: &str) -> Vec<u16> {
    let mut table = vec![0; 3 * oracle::MAX_PSL_NODES];
    let nodes = oracle::read_formula(line.as_bytes(), &mut table).expect(line);
    table.truncate(3 * nodes);
    table
}

/// Every table of one or two nodes whose numbers are of these.
fn small_tables(kinds: u16) -> Vec<Vec<u16>> {
    let mut nodes = Vec::new();
    for kind in 0..=kinds {
        for left in [0, 1, 2, 31, 32, 65535] {
            nodes.extend([0, 1, 65535].map(|right| vec![kind, left, right]));
        }
    }
    let mut tables = nodes.clone();
    for first in &nodes {
        tables.extend(nodes.iter().map(|second| [&first[..], second].concat()));
    }
    tables
}

/// A table with one fault and with two, of the same node or of two nodes:
/// every node with an unknown kind, either place too large, the node as its
/// own operand, and node 0 or node 1 as its operand.
fn faulty(table: &[u16]) -> Vec<Vec<u16>> {
    let mut faults = Vec::new();
    for node in 0..table.len() / 3 {
        faults.push((3 * node, 11));
        for place in [3 * node + 1, 3 * node + 2] {
            faults.extend([65535, node as u16, 0, 1].map(|value| (place, value)));
        }
    }
    let mut tables = Vec::new();
    for first in &faults {
        for second in &faults {
            let mut table = table.to_vec();
            for &(place, value) in [first, second] {
                table[place] = value;
            }
            tables.push(table);
        }
    }
    tables
}

pub fn psl_tables() -> Vec<Vec<u16>> {
    let mut tables = small_tables(11);
    tables.extend(faulty(&table_of(FORMULAS[15])));
    tables.extend([1023, 1024, 1025].map(|nodes| chain(nodes, oracle::PSL_NEXT)));
    tables
}

pub fn ltl_tables() -> Vec<Vec<u16>> {
    let mut tables = small_tables(7);
    tables.extend(faulty(&translated(&table_of(FORMULAS[0]))));
    tables.extend([4095, 4096, 4097].map(|nodes| vec![0; 3 * nodes]));
    tables
}

/// The largest translation, with space one short, enough, and one more.
pub fn translations() -> Vec<(Vec<u16>, usize)> {
    let largest = || chain(1024, oracle::PSL_NEXT);
    let enough = 3 * oracle::translated_size(&largest());
    (enough - 1..=enough + 1)
        .map(|space| (largest(), space))
        .collect()
}

// ---------------------------------------------------------------- traces

/// Every trace of at most three letters of two signals, and long ones of
/// 62 to 66 letters with every length of lead-in.
fn traces() -> Vec<Trace> {
    let mut words: Vec<Vec<Letter>> = vec![Vec::new()];
    let mut longest = words.clone();
    for _ in 0..3 {
        let longer =
            |word: &Vec<Letter>| [0, 1, 2, 3].map(|letter| [&word[..], &[letter]].concat());
        longest = longest.iter().flat_map(longer).collect();
        words.extend(longest.iter().cloned());
    }
    for length in 62..=66 {
        words.push((0..length).map(|at| at * at / 3).collect());
        words.push((0..length).map(|at| (at + 2 < length) as Letter).collect());
    }
    let splits = |word: Vec<Letter>| -> Vec<Trace> {
        let split = |lead| (word[..lead].to_vec(), word[lead..].to_vec());
        (0..=word.len()).map(split).collect()
    };
    words.into_iter().flat_map(splits).collect()
}

/// Each table on each trace.
fn judged(tables: Vec<Vec<u16>>) -> Vec<(Vec<u16>, Trace)> {
    let traces = traces();
    let on_all = |table: Vec<u16>| -> Vec<(Vec<u16>, Trace)> {
        traces
            .iter()
            .map(|trace| (table.clone(), trace.clone()))
            .collect()
    };
    tables.into_iter().flat_map(on_all).collect()
}

pub fn psl_verdicts() -> Vec<(Vec<u16>, Trace)> {
    judged(FORMULAS.map(table_of).to_vec())
}

pub fn ltl_verdicts() -> Vec<(Vec<u16>, Trace)> {
    judged(FORMULAS.map(|line| translated(&table_of(line))).to_vec())
}

// ----------------------------------------------------------------- lines

/// A line with every beginning of it, every byte left out, doubled, and
/// replaced by every other.
fn damaged(line: &str) -> Vec<Vec<u8>> {
    let line = line.as_bytes();
    let mut lines = vec![line.to_vec()];
    for at in 0..line.len() {
        let (before, after) = (&line[..at], &line[at + 1..]);
        lines.push(before.to_vec());
        lines.push([before, after].concat());
        lines.push([before, &[line[at]; 2], after].concat());
        lines.extend((0..=255).map(|byte| [before, &[byte], after].concat()));
    }
    lines
}

/// A line that is `length` bytes long, digits filling the place of `@`.
fn filled(line: &str, length: usize) -> Vec<u8> {
    let digits = "1".repeat(length + 1 - line.len());
    line.replace('@', &digits).into_bytes()
}

/// A line that opens `count` forms and closes all but `open` of them.
fn nested(count: usize, open: usize) -> Vec<u8> {
    let (before, after) = ("(not ".repeat(count), ")".repeat(count - open));
    format!("(psl {}(weak true){})", before, after).into_bytes()
}

/// Forms that have so many times the nodes of the formula at @, and so many more.
const COPYING: [(&str, usize, usize); 4] = [
    ("(iff (weak true) @)", 2, 15),
    ("(iff @ (weak true))", 2, 15),
    ("(wuntil @ (weak true))", 2, 12),
    ("(iff (next (weak true)) (wuntil @ (weak true)))", 4, 41),
];

/// A formula of exactly so many nodes when spelled out, such a form in another.
fn copying(form: &str, times: usize, more: usize, nodes: usize) -> String {
    let inner = |nodes| copying(form, times, more, nodes);
    match nodes.checked_sub(more) {
        Some(rest) if rest >= 2 * times && rest % times == 0 => {
            form.replace('@', &inner(rest / times))
        }
        _ if nodes == 2 => "(weak true)".to_string(),
        _ => format!("(not {})", inner(nodes - 1)),
    }
}

/// Lines around 1,024 nodes when spelled out, and lines of about 16,384 bytes
/// that have far more, without and with a fault in the last byte.
fn copying_lines() -> Vec<Vec<u8>> {
    let mut lines = Vec::new();
    for (form, times, more) in COPYING {
        for nodes in 1000..1050 {
            let formula = copying(form, times, more, nodes);
            lines.push(format!("(psl {formula})").into_bytes());
        }
        let (before, after) = form.split_once('@').unwrap();
        for length in [16383, 16384, 16385] {
            let depth = (length - 20) / (form.len() - 1);
            let (before, after) = (before.repeat(depth), after.repeat(depth));
            let line = filled(&format!("(psl {before}(weak (var @)){after})"), length);
            lines.push([&line[..length - 1], b" "].concat());
            lines.push(line);
        }
    }
    lines
}

pub fn formula_lines() -> Vec<(Line, usize)> {
    let mut lines = damaged(FORMULAS[20]);
    for formula in [FORMULAS[9], FORMULAS[13], FORMULAS[15]] {
        lines.extend(damaged(formula).into_iter().step_by(5));
    }
    lines.extend(damaged(SHORT));
    lines.extend(copying_lines());
    lines.extend([1023, 1024, 1025].map(|nodes| spell(&chain(nodes, oracle::PSL_NEXT))));
    for length in [16383, 16384, 16385] {
        lines.push(filled("(psl (weak (var @)))", length));
        for form in ["(not ", "(or ", "(or (weak true) "] {
            lines.push(format!("(psl {}", form.repeat(length)).into_bytes()[..length].to_vec());
        }
    }
    lines.extend([
        nested(1023, 0),
        nested(1023, 1),
        nested(2727, 0),
        nested(2727, 1),
    ]);
    let space = 3 * oracle::MAX_PSL_NODES;
    lines.into_iter().map(|line| (Line(line), space)).collect()
}

pub fn trace_lines() -> Vec<(Line, [usize; 2])> {
    let mut lines: Vec<Vec<u8>> = TRACES.iter().flat_map(|line| damaged(line)).collect();
    lines.extend(
        traces()
            .iter()
            .map(|(lead, cycle)| spell_trace(lead, cycle)),
    );
    for length in [16383, 16384, 16385] {
        lines.push(filled("(finite @)", length));
        lines.push(filled("(lasso (0) (@))", length));
    }
    lines
        .into_iter()
        .map(|line| (Line(line), [64, 64]))
        .collect()
}

pub fn node_lines() -> Vec<([u16; 4], usize)> {
    let mut nodes = Vec::new();
    for own in [0, 1, 9, 10, 1000, 4095, 4096, 65535] {
        for kind in 0..=7 {
            for left in [0, 1, 9, 31, 32, 999, 4094, 4095] {
                nodes.extend([0, 1, 10, 4094, 4095].map(|right| [own, kind, left, right]));
            }
        }
    }
    let spaces = |node| [0, 8, 9, 10, 22, 23, 24].map(|space| (node, space));
    nodes.into_iter().flat_map(spaces).collect()
}

// ---------------------------------------------------------------- inputs

/// Whole inputs that random ones do not reach.
const INPUTS: [&str; 12] = [
    "",
    "\n",
    "\n\n",
    "\r\n",
    "\0\n",
    "(psl (weak true))",
    "(psl (weak true))\r\n(finite 0)\r\n",
    "\n(psl (weak true))\n(finite 0)\n",
    "(psl (weak true))\n(psl (weak true))\n",
    "(psl (weak true))\n\n(finite)\r\n(finite)\n",
    "(psl (weak true))\n(finite 1\0)\n\0\n(finite 1)\n",
    "(psl (next (strong (var 1))))\n(finite 1)\n(finite 0 2)\n(lasso () (2))\n(finite)",
];

/// Whole inputs: empty ones, line ends, line lengths, bytes of all sorts.
pub fn inputs() -> Vec<Vec<u8>> {
    let mut inputs = INPUTS.map(|text| text.as_bytes().to_vec()).to_vec();
    for length in [16383, 16384, 16385, 65535, 65536, 65537, 1 << 20] {
        let long_formula = filled("(psl (weak (var @)))", length);
        let long_trace = filled("(psl (weak true))\n(finite @)", length + 18);
        let end = b"\n(finite 2)\n(lasso (1) (0))\n";
        inputs.push([&long_formula[..], end].concat());
        inputs.push([&long_trace[..], end].concat());
        inputs.extend([long_formula, long_trace, vec![b'('; length]]);
    }
    // The largest table, and the deepest lines.
    let largest = spell(&chain(1024, oracle::PSL_NEXT));
    inputs.push([&largest[..], b"\n(finite 0)\n(lasso () (0))\n(finite)\n"].concat());
    inputs.push(nested(2727, 0));
    inputs.push(format!("(psl {}", "(or ".repeat(4094)).into_bytes());
    let short = format!("{SHORT}\n(finite)\n(finite 2)\n(lasso () (0 2))\n");
    inputs.push(short.into_bytes());
    inputs.extend(copying_lines());
    inputs.extend(faulty_inputs());
    inputs
}

/// A formula line that is refused at each of its places, and a run with every
/// damage of some trace lines.
fn faulty_inputs() -> Vec<Vec<u8>> {
    let line = SHORT.as_bytes();
    let at_each = (0..line.len()).flat_map(|at| {
        let (before, after) = line.split_at(at);
        [before.to_vec(), [before, b"#", after].concat()]
    });
    let mut run = FORMULAS[10].as_bytes().to_vec();
    for line in TRACES.iter().flat_map(|line| damaged(line)) {
        run.push(b'\n');
        run.extend(line);
    }
    at_each.chain([run]).collect()
}
