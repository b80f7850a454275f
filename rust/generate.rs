//! Seeded inputs for every operation: accepted ones, and these with changes
//! taken from tables. What a changed input is answered by is the evaluator's
//! to tell. Equal seeds give equal inputs.

#![allow(dead_code)]

use super::oracle::{self, Place};
use super::oracle::{LTL_AND, LTL_NEXT, LTL_NOT, LTL_OR, LTL_TRUE, LTL_UNTIL, LTL_VAR};
use super::oracle::{PSL_ABORT, PSL_AND, PSL_NEXT, PSL_NOT, PSL_STRONG, PSL_UNTIL, PSL_WEAK};
use super::oracle::{PSL_BAND, PSL_BNOT, PSL_TRUE, PSL_VAR};
use super::types::Letter;

/// A splitmix64 generator.
pub struct Rng(u64);

impl Rng {
    pub fn new(seed: u64) -> Rng {
        Rng(seed)
    }

    pub fn next(&mut self) -> u64 {
        self.0 = self.0.wrapping_add(0x9e37_79b9_7f4a_7c15);
        let mut z = self.0;
        z = (z ^ (z >> 30)).wrapping_mul(0xbf58_476d_1ce4_e5b9);
        z = (z ^ (z >> 27)).wrapping_mul(0x94d0_49bb_1331_11eb);
        z ^ (z >> 31)
    }

    /// A number below `limit`, which is above 0.
    pub fn below(&mut self, limit: usize) -> usize {
        (self.next() % limit as u64) as usize
    }

    /// A number from `low` to `high`, both included.
    pub fn between(&mut self, low: usize, high: usize) -> usize {
        low + self.below(high - low + 1)
    }

    /// True once in `times` on average.
    pub fn once_in(&mut self, times: usize) -> bool {
        self.below(times) == 0
    }

    pub fn pick<T: Copy>(&mut self, choices: &[T]) -> T {
        choices[self.below(choices.len())]
    }
}

// ------------------------------------------------------- accepted tables

/// Adds a node and returns its number.
fn push(table: &mut Vec<u16>, node: [u16; 3]) -> u16 {
    table.extend_from_slice(&node);
    (table.len() / 3 - 1) as u16
}

/// A signal, mostly one of few so that formulas depend on the trace.
fn signal(rng: &mut Rng) -> u16 {
    match rng.below(10) {
        0 => rng.below(oracle::MAX_SIGNAL as usize + 1) as u16,
        1 => rng.pick(&[2, oracle::MAX_SIGNAL - 1, oracle::MAX_SIGNAL]),
        2..=5 => 0,
        _ => 1,
    }
}

/// Adds a Boolean of exactly `nodes` nodes and returns its number.
fn grow_boolean(rng: &mut Rng, nodes: usize, table: &mut Vec<u16>) -> u16 {
    let node = if nodes == 1 {
        if rng.once_in(7) {
            [PSL_TRUE, 0, 0]
        } else {
            [PSL_VAR, signal(rng), 0]
        }
    } else if nodes == 2 || rng.once_in(3) {
        [PSL_BNOT, grow_boolean(rng, nodes - 1, table), 0]
    } else {
        let left = rng.between(1, nodes - 2);
        let b = grow_boolean(rng, left, table);
        [PSL_BAND, b, grow_boolean(rng, nodes - 1 - left, table)]
    };
    push(table, node)
}

/// Kinds for formulas of at least 3, 4 and 5 nodes.
type Flavour = [&'static [u16]; 3];

const ABORTS: Flavour = [
    &[PSL_NOT, PSL_NOT, PSL_NEXT],
    &[PSL_ABORT, PSL_ABORT, PSL_ABORT],
    &[PSL_UNTIL],
];
const UNTILS: Flavour = [
    &[PSL_NOT, PSL_NEXT, PSL_NEXT],
    &[],
    &[PSL_UNTIL, PSL_UNTIL, PSL_UNTIL],
];
const EVEN: Flavour = [
    &[PSL_NOT, PSL_NEXT],
    &[PSL_ABORT],
    &[PSL_AND, PSL_UNTIL, PSL_UNTIL],
];

/// A formula kind for a formula of this size.
fn formula_kind(rng: &mut Rng, nodes: usize, flavour: Flavour) -> u16 {
    let mut kinds = Vec::new();
    if nodes <= 3 || rng.once_in(16) {
        kinds.extend_from_slice(&[PSL_WEAK, PSL_STRONG]);
    }
    for (more, least) in flavour.iter().zip(3..) {
        if nodes >= least {
            kinds.extend_from_slice(more);
        }
    }
    rng.pick(&kinds)
}

/// Adds a formula of exactly `nodes` nodes, at least 2, and returns its number.
fn grow_formula(rng: &mut Rng, nodes: usize, flavour: Flavour, table: &mut Vec<u16>) -> u16 {
    let kind = formula_kind(rng, nodes, flavour);
    let below = nodes - 1;
    let node = match kind {
        PSL_WEAK | PSL_STRONG => [kind, grow_boolean(rng, below, table), 0],
        PSL_NOT | PSL_NEXT => [kind, grow_formula(rng, below, flavour, table), 0],
        PSL_ABORT => {
            // Mostly a small Boolean.
            let most = if rng.once_in(4) { below - 2 } else { 3 };
            let boolean = rng.between(1, most.min(below - 2));
            let f = grow_formula(rng, below - boolean, flavour, table);
            [kind, f, grow_boolean(rng, boolean, table)]
        }
        _ => {
            let left = rng.between(2, below - 2);
            let f = grow_formula(rng, left, flavour, table);
            [kind, f, grow_formula(rng, below - left, flavour, table)]
        }
    };
    push(table, node)
}

/// A PSL table of exactly `nodes` nodes, at least 2, as a line gives it. It is
/// accepted up to 1,024 nodes.
pub fn psl_table(rng: &mut Rng, nodes: usize) -> Vec<u16> {
    let mut table = Vec::new();
    let flavour = rng.pick(&[EVEN, ABORTS, ABORTS, UNTILS]);
    grow_formula(rng, nodes, flavour, &mut table);
    table
}

/// True, weak, and nodes of one kind over them up to so many nodes. Nexts
/// have the largest translation.
pub fn chain(nodes: usize, kind: u16) -> Vec<u16> {
    let mut table = vec![PSL_TRUE, 0, 0, PSL_WEAK, 0, 0];
    for node in 2..nodes {
        push(&mut table, [kind, node as u16 - 1, 0]);
    }
    table
}

/// The translation of an accepted PSL table.
pub fn translated(table: &[u16]) -> Vec<u16> {
    let mut out = vec![0; 3 * oracle::translated_size(table)];
    oracle::translate(table, &mut out).expect("an accepted table");
    out
}

/// The operands of a node of a PSL table: the place in the list, and the node.
pub fn operands(table: &[u16], node: usize) -> impl Iterator<Item = (usize, usize)> + '_ {
    let places = oracle::psl_places(table[3 * node]).unwrap();
    (0..2)
        .filter(move |&side| matches!(places[side], Place::Operand(_)))
        .map(move |side| 3 * node + 1 + side)
        .map(|at| (at, table[at] as usize))
}

/// The same formula in any numbering with operands below their users.
fn renumbered(rng: &mut Rng, table: &[u16]) -> Vec<u16> {
    let nodes = table.len() / 3;
    let mut user = vec![nodes - 1; nodes];
    for node in 0..nodes {
        operands(table, node).for_each(|(_, operand)| user[operand] = node);
    }
    let mut missing: Vec<usize> = (0..nodes).map(|n| operands(table, n).count()).collect();
    let mut ready: Vec<usize> = (0..nodes).filter(|&node| missing[node] == 0).collect();
    let mut number = vec![0; nodes];
    let mut renumbered = Vec::new();
    while !ready.is_empty() {
        let node = ready.swap_remove(rng.below(ready.len()));
        let mut triple = [table[3 * node], table[3 * node + 1], table[3 * node + 2]];
        for (at, operand) in operands(table, node) {
            triple[at - 3 * node] = number[operand];
        }
        number[node] = push(&mut renumbered, triple);
        if node != nodes - 1 {
            missing[user[node]] -= 1;
            if missing[user[node]] == 0 {
                ready.push(user[node]);
            }
        }
    }
    renumbered
}

/// A node count, mostly small, at times the largest or one beyond.
fn psl_size(rng: &mut Rng) -> usize {
    match rng.below(200) {
        0 | 1 => rng.pick(&[1024, 1025, 1025, 1026]),
        2..=4 => rng.between(100, 400),
        5..=20 => rng.between(13, 60),
        _ => rng.between(2, 12),
    }
}

/// A PSL table in any numbering, at times of more than 1,024 nodes.
pub fn some_psl_table(rng: &mut Rng) -> Vec<u16> {
    let nodes = psl_size(rng);
    let table = psl_table(rng, nodes);
    if rng.once_in(3) {
        table
    } else {
        renumbered(rng, &table)
    }
}

/// The same of at most 1,024 nodes, and so accepted.
pub fn accepted_psl_table(rng: &mut Rng) -> Vec<u16> {
    loop {
        let table = some_psl_table(rng);
        if table.len() <= 3 * oracle::MAX_PSL_NODES {
            return table;
        }
    }
}

/// A node of an LTL table, with operands below its number.
fn ltl_node(rng: &mut Rng, node: usize) -> [u16; 3] {
    let kind = if node == 0 || rng.once_in(5) {
        if rng.once_in(7) {
            LTL_TRUE
        } else {
            LTL_VAR
        }
    } else {
        rng.pick(&[
            LTL_NOT, LTL_AND, LTL_OR, LTL_NEXT, LTL_NEXT, LTL_UNTIL, LTL_UNTIL,
        ])
    };
    let places = oracle::ltl_places(kind).unwrap();
    let [left, right] = places.map(|place| match place {
        Place::Unused => 0,
        Place::Signal => signal(rng),
        Place::Operand(_) => {
            // Mostly a recent node.
            let reach = if rng.once_in(4) { node } else { node.min(4) };
            (node - 1 - rng.below(reach)) as u16
        }
    });
    [kind, left, right]
}

/// An LTL table of exactly `nodes` nodes, accepted up to 4,096.
pub fn ltl_table(rng: &mut Rng, nodes: usize) -> Vec<u16> {
    (0..nodes).flat_map(|node| ltl_node(rng, node)).collect()
}

/// An LTL table, mostly small, at times of the largest size or one beyond.
pub fn some_ltl_table(rng: &mut Rng) -> Vec<u16> {
    let nodes = match rng.below(200) {
        0 => rng.pick(&[4095, 4096, 4097]),
        1 | 2 => rng.between(100, 1500),
        3..=30 => rng.between(13, 80),
        _ => rng.between(1, 12),
    };
    ltl_table(rng, nodes)
}

// -------------------------------------------------------- changed tables

/// What a place of a node becomes.
#[derive(Clone, Copy)]
enum Value {
    Is(u16),
    /// The number of the node itself.
    Own,
    /// A number of about that size.
    Any,
}

use Value::{Any, Is, Own};

/// What kind, left and right of a node become.
const NODE_CHANGES: [&[Value]; 3] = [
    &[Is(7), Is(8), Is(11), Is(65535), Any, Any, Any],
    &[Is(0), Is(1), Is(31), Is(32), Is(64), Is(65535), Own, Any],
    &[Is(0), Is(1), Is(65535), Own, Any, Any],
];

/// A change of a table that is more than one of a node.
#[derive(Clone, Copy)]
enum TableChange {
    /// So many numbers from some node on are left out.
    Remove(usize),
    /// Some node is the last.
    End,
    /// Numbers follow the last node.
    Append(&'static [u16]),
}

const TABLE_CHANGES: [TableChange; 8] = [
    TableChange::Remove(1),
    TableChange::Remove(3),
    TableChange::End,
    TableChange::End,
    TableChange::Append(&[0]),
    TableChange::Append(&[0, 0, 0]),
    TableChange::Append(&[2, 0, 0]),
    TableChange::Append(&[7, 1, 1]),
];

fn change_node(rng: &mut Rng, node: &mut [u16], own: usize) {
    let place = rng.below(3);
    node[place] = match rng.pick(NODE_CHANGES[place]) {
        Is(number) => number,
        Own => own as u16,
        Any => rng.below(own + 3) as u16,
    };
}

fn change_table(rng: &mut Rng, table: &mut Vec<u16>) {
    let node = rng.below((table.len() / 3).max(1));
    let (start, end) = (3 * node, 3 * node + 3);
    if end <= table.len() && !rng.once_in(3) {
        return change_node(rng, &mut table[start..end], node);
    }
    match rng.pick(&TABLE_CHANGES) {
        TableChange::Remove(count) => {
            table.drain(start..(start + count).min(table.len()));
        }
        TableChange::End => table.truncate(end),
        TableChange::Append(numbers) => table.extend_from_slice(numbers),
    }
}

/// Changes two nodes, or one twice: mostly faults, of which the first is told.
fn change_two(rng: &mut Rng, table: &mut [u16]) {
    let nodes = table.len() / 3;
    let (first, second) = (rng.below(nodes), rng.below(nodes));
    for node in [first, rng.pick(&[first, second])] {
        change_node(rng, &mut table[3 * node..3 * node + 3], node);
    }
}

/// An input left alone or changed up to three times.
fn changed<T>(rng: &mut Rng, mut input: T, change: impl Fn(&mut Rng, &mut T)) -> T {
    for _ in 0..rng.pick(&[0, 0, 0, 0, 1, 1, 2, 3]) {
        change(rng, &mut input);
    }
    input
}

/// A table changed in any way, or in two nodes.
fn any_table(rng: &mut Rng, mut table: Vec<u16>) -> Vec<u16> {
    if rng.once_in(6) {
        change_two(rng, &mut table);
        return table;
    }
    changed(rng, table, change_table)
}

/// A table that is one Boolean, whose last node is refused.
fn boolean_table(rng: &mut Rng) -> Vec<u16> {
    let mut table = Vec::new();
    let nodes = rng.between(1, 100);
    grow_boolean(rng, nodes, &mut table);
    table
}

pub fn any_psl_table(rng: &mut Rng) -> Vec<u16> {
    if rng.once_in(50) {
        return boolean_table(rng);
    }
    let table = some_psl_table(rng);
    any_table(rng, table)
}

pub fn any_ltl_table(rng: &mut Rng) -> Vec<u16> {
    let table = some_ltl_table(rng);
    any_table(rng, table)
}

/// Own number, kind, left and right for a node line.
pub fn any_node(rng: &mut Rng) -> [u16; 4] {
    let own = match rng.below(4) {
        0 => rng.below(oracle::MAX_LTL_NODES),
        1 => rng.between(0, 40),
        2 => rng.pick(&[9, 10, 99, 100, 999, 1000, 4094, 4095]),
        _ => rng.pick(&[0, 1, 2, 4095, 4096, 65535]),
    };
    let node = ltl_node(rng, own);
    let [kind, left, right] = changed(rng, node, |rng, node| change_node(rng, node, own));
    [own as u16, kind, left, right]
}

// ---------------------------------------------------------------- traces

/// Lead-in and cycle.
pub type Trace = (Vec<Letter>, Vec<Letter>);

/// A letter, mostly of signals 0 and 1 only.
fn letter(rng: &mut Rng) -> Letter {
    match rng.below(10) {
        0 => rng.next() as Letter,
        1 => rng.pick(&[0, Letter::MAX, Letter::MAX / 2, Letter::MAX / 2 + 1]),
        _ => rng.below(4) as Letter,
    }
}

fn letters(rng: &mut Rng, count: usize) -> Vec<Letter> {
    (0..count).map(|_| letter(rng)).collect()
}

/// A trace of exactly `count` letters, finite or with a cycle.
pub fn trace_of(rng: &mut Rng, count: usize) -> Trace {
    let cycle = if count == 0 || rng.once_in(3) {
        0
    } else if rng.once_in(3) {
        rng.between(1, count.min(3))
    } else {
        rng.between(1, count)
    };
    (letters(rng, count - cycle), letters(rng, cycle))
}

/// Any trace: empty, short, at the border of 64, or too long.
pub fn any_trace(rng: &mut Rng) -> Trace {
    let count = match rng.below(60) {
        0 | 1 => 0,
        2 | 3 => rng.between(63, 66),
        4..=6 => rng.between(9, 65),
        7 => rng.between(65, 300),
        _ => rng.between(1, 8),
    };
    trace_of(rng, count)
}

/// A trace with no letter twice, so that a part of it tells which list it is
/// from, and where; and a moment inside, at the borders, or huge.
pub fn moment_of_trace(rng: &mut Rng) -> (Trace, usize) {
    let (mut lead, mut cycle) = any_trace(rng);
    // Steps by an odd number meet no letter again before all are used.
    let (mut letter, step) = (rng.next() as Letter, rng.next() as Letter | 1);
    for place in lead.iter_mut().chain(&mut cycle) {
        letter = letter.wrapping_add(step);
        *place = letter;
    }
    let (first, all) = (lead.len(), lead.len() + cycle.len());
    let moment = match rng.below(8) {
        0 => usize::MAX - rng.below(3),
        1 => rng.next() as usize,
        2 => first.saturating_sub(1) + rng.below(3),
        3 => all.saturating_sub(1) + rng.below(3),
        4 => first + cycle.len() * rng.below(1000) + rng.below(3),
        _ => rng.below(2 * all + 2),
    };
    ((lead, cycle), moment)
}

/// Lent space where `enough` is just enough: that, one short, longer, none.
pub fn space(rng: &mut Rng, enough: usize) -> usize {
    match rng.below(8) {
        0..=2 => enough,
        3 => enough.saturating_sub(1),
        4 => enough + 1,
        5 => enough + rng.below(40),
        6 => rng.below(enough + 1),
        _ => rng.pick(&[0, 3 * enough]),
    }
}

// ----------------------------------------------------------------- lines

/// The words of the PSL kinds.
const WORDS: [&str; 11] = [
    "true", "var", "bnot", "band", "weak", "strong", "not", "and", "next", "until", "abort",
];

/// The line of an accepted PSL table, whatever its numbering.
pub fn spell(table: &[u16]) -> Vec<u8> {
    let mut line = b"(psl ".to_vec();
    spell_node(table, table.len() / 3 - 1, &mut line);
    line.push(b')');
    line
}

fn spell_node(table: &[u16], node: usize, line: &mut Vec<u8>) {
    let kind = table[3 * node];
    if kind == PSL_TRUE {
        return line.extend_from_slice(b"true");
    }
    line.extend_from_slice(format!("({}", WORDS[kind as usize]).as_bytes());
    if kind == PSL_VAR {
        line.extend_from_slice(format!(" {}", table[3 * node + 1]).as_bytes());
    }
    for (_, operand) in operands(table, node) {
        line.push(b' ');
        spell_node(table, operand, line);
    }
    line.push(b')');
}

/// A form of one or two formulas, which stand at each @; the nodes of its own
/// when spelled out; and how often each formula then stands.
type Form = (&'static str, usize, [usize; 2]);

const FORMS: [Form; 13] = [
    ("(not @)", 1, [1, 0]),
    ("(and @ @)", 1, [1, 1]),
    ("(next @)", 1, [1, 0]),
    ("(until @ @)", 1, [1, 1]),
    ("(abort @ (var 0))", 2, [1, 0]),
    ("(or @ @)", 4, [1, 1]),
    ("(implies @ @)", 5, [1, 1]),
    ("(wnext @)", 3, [1, 0]),
    ("(eventually @)", 3, [1, 0]),
    ("(always @)", 5, [1, 0]),
    ("(before @ @)", 3, [1, 1]),
    ("(iff @ @)", 11, [2, 2]),
    ("(wuntil @ @)", 10, [2, 1]),
];

/// All forms, the short ones, those that double an operand.
const CHOICES: [&[Form]; 3] = [&FORMS, FORMS.split_at(5).1, FORMS.split_at(11).1];

/// Sizes of the operands with which a form has exactly `nodes` nodes.
fn operand_sizes(rng: &mut Rng, form: &Form, nodes: usize) -> Option<[usize; 2]> {
    let (_, own, [left, right]) = *form;
    // Each formula has two nodes at least.
    let rest = nodes.checked_sub(own + 2 * (left + right))?;
    if right == 0 {
        return Some([rest + 2, 0]);
    }
    let more = rng.between(0, rest / left);
    let rest = rest - left * more;
    (rest % right == 0).then_some([more + 2, rest / right + 2])
}

/// Adds a formula of exactly `nodes` nodes, at least 2, when spelled out.
fn write_formula(rng: &mut Rng, nodes: usize, forms: &[Form], line: &mut Vec<u8>) {
    let fitting: Vec<_> = forms
        .iter()
        .filter_map(|form| Some((form.0, operand_sizes(rng, form, nodes)?)))
        .collect();
    if fitting.is_empty() || rng.once_in(16) {
        let mut table = Vec::new();
        let root = grow_formula(rng, nodes, EVEN, &mut table);
        return spell_node(&table, root as usize, line);
    }
    let (form, sizes) = rng.pick(&fitting);
    let mut sizes = sizes.into_iter();
    for part in form.split_inclusive('@') {
        line.extend_from_slice(part.trim_end_matches('@').as_bytes());
        if part.ends_with('@') {
            write_formula(rng, sizes.next().unwrap(), forms, line);
        }
    }
}

/// A line with short forms that has exactly `nodes` nodes, at least 2, when
/// spelled out.
pub fn short_line(rng: &mut Rng, nodes: usize) -> Vec<u8> {
    let forms = rng.pick(&CHOICES);
    let mut line = b"(psl ".to_vec();
    write_formula(rng, nodes, forms, &mut line);
    line.push(b')');
    line
}

/// The line of a trace. An empty cycle gives a finite trace.
pub fn spell_trace(lead: &[Letter], cycle: &[Letter]) -> Vec<u8> {
    let spelled = |letters: &[Letter]| -> Vec<String> {
        letters.iter().map(|letter| letter.to_string()).collect()
    };
    let (lead, cycle) = (spelled(lead).join(" "), spelled(cycle).join(" "));
    let line = if !cycle.is_empty() {
        format!("(lasso ({}) ({}))", lead, cycle)
    } else if lead.is_empty() {
        "(finite)".to_string()
    } else {
        format!("(finite {})", lead)
    };
    line.into_bytes()
}

/// Texts, and what some occurrence of one becomes. The empty text occurs
/// everywhere.
const REPLACED: [(&str, &[&str]); 27] = [
    ("", &[" ", "(", ")", "0", "x", "\t", "\r", "\0"]),
    ("(", &["", "(("]),
    (")", &["", "))", " )", ") "]),
    (" ", &["", "  ", " ("]),
    // Words, and forms of the wrong sort.
    ("psl", &["PSL", "ps", "weak"]),
    ("weak", &["Weak", "strong", "not"]),
    ("strong", &["weak", "bnot", "strongg"]),
    ("not", &["next"]),
    ("next", &["not", "weak"]),
    ("until", &["and", "abort"]),
    ("abort", &["until", "band"]),
    // Short forms, with one operand too few or too many, and nearly their words.
    ("or ", &["or", "always ", "wnext (or "]),
    ("implies", &["iff", "eventually", "imply"]),
    ("iff", &["iffy", "wuntil", "if", "not"]),
    ("wnext", &["next", "always", "before", "weaknext"]),
    ("always", &["eventually", "or", "Always"]),
    ("until", &["wuntil", "before", "wnext"]),
    ("true", &["(true)", "tru", "(weak true)"]),
    ("(var ", &["(weak ", "(var (", "("]),
    ("finite", &["lasso", "finit"]),
    ("lasso", &["finite"]),
    ("(0)", &["()", "( 0)", "(0 )"]),
    // Numbers not of the shape, and numbers too large or nearly.
    ("0", &["", "00", "-0", "0x"]),
    ("1", &["01", "-1", "+1", "1 "]),
    ("0", &["65536", "4294967295", "4294967296"]),
    ("1", &["32", "64", "256", "4294967297"]),
    ("1", &["18446744073709551615", "18446744073709551616"]),
];

/// Texts of which some occurrence is written so many times: long numbers,
/// many letters, long lines.
const REPEATED: [(&str, usize); 8] = [
    ("1", 12),
    ("1", 40),
    ("1", 16384),
    (" ", 16384),
    (" 0", 61),
    (" 0", 65),
    (" 1", 65),
    (" 3", 65),
];

/// Replaces the first occurrence of a text from some place on.
fn replace(rng: &mut Rng, line: &mut Vec<u8>, old: &str, new: &str) {
    let start = rng.below(line.len() + 1);
    let found = (start..=line.len()).find(|&at| line[at..].starts_with(old.as_bytes()));
    if let Some(at) = found {
        line.splice(at..at + old.len(), new.bytes());
    }
}

fn change_line(rng: &mut Rng, line: &mut Vec<u8>) {
    let start = rng.below(line.len() + 1);
    let end = rng.between(start, line.len());
    match rng.below(32) {
        0 => line.truncate(start),
        1 => drop(line.drain(start..end)),
        2 => {
            let again = line[start..end].to_vec();
            line.splice(start..start, again);
        }
        3..=7 => {
            let (text, times) = rng.pick(&REPEATED);
            replace(rng, line, text, &text.repeat(times));
        }
        _ => {
            let (old, new) = rng.pick(&REPLACED);
            let new = rng.pick(new);
            replace(rng, line, old, new);
        }
    }
}

/// The bytes that lines are made of, and some that stand in none.
const BYTES: &[u8] = b"  (())0123456789abdefgiklmnoprstuvwxy-\t\r\0\xff";

/// Damages a line in one byte, wherever it stands: cut there, or the byte left
/// out, replaced, or one put before it.
fn damage_line(rng: &mut Rng, line: &mut Vec<u8>) {
    let at = rng.below(line.len());
    let byte = rng.pick(BYTES);
    match rng.below(5) {
        0 => line.truncate(at),
        1 => drop(line.remove(at)),
        2 => line.insert(at, byte),
        _ => line[at] = byte,
    }
}

/// A line changed in any way, or damaged in one byte.
fn any_line(rng: &mut Rng, mut line: Vec<u8>) -> Vec<u8> {
    if rng.once_in(4) {
        damage_line(rng, &mut line);
        return line;
    }
    changed(rng, line, change_line)
}

/// A node count for a line with short forms, at times about the largest.
fn spelled_size(rng: &mut Rng) -> usize {
    match rng.below(100) {
        0 | 1 => rng.between(1020, 1028),
        2 => rng.between(200, 3000),
        3..=20 => rng.between(40, 200),
        _ => rng.between(5, 40),
    }
}

pub fn any_formula_line(rng: &mut Rng) -> Vec<u8> {
    let line = if rng.once_in(2) {
        spell(&some_psl_table(rng))
    } else {
        let nodes = spelled_size(rng);
        short_line(rng, nodes)
    };
    any_line(rng, line)
}

pub fn any_trace_line(rng: &mut Rng) -> Vec<u8> {
    let (lead, cycle) = any_trace(rng);
    any_line(rng, spell_trace(&lead, &cycle))
}

/// An input of the whole program: a formula line, which is mostly accepted,
/// and so many trace lines.
pub fn whole_input(rng: &mut Rng, traces: usize) -> Vec<u8> {
    let mut input = if rng.once_in(4) {
        any_formula_line(rng)
    } else if rng.once_in(2) {
        let nodes = rng.between(2, 14);
        spell(&psl_table(rng, nodes))
    } else {
        let nodes = rng.between(5, 40);
        short_line(rng, nodes)
    };
    for _ in 0..traces {
        input.push(b'\n');
        if rng.once_in(6) {
            input.extend(any_trace_line(rng));
        } else {
            let count = rng.between(0, 8);
            let (lead, cycle) = trace_of(rng, count);
            input.extend(spell_trace(&lead, &cycle));
        }
    }
    input.extend_from_slice(rng.pick(&[&b""[..], b"\n", b"\n", b"\n\n", b"\n\n\n"]));
    input
}
