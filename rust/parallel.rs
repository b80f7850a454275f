//! Both checks, both verdicts, the translator, the lines and the whole run in
//! plain Rust written for speed: what the library is measured against.
//!
//! It tests all that the library tests, but says only whether an input is
//! accepted, and answers what the benchmark asks: traces of 1 to 64 letters,
//! and lists with room enough.
//!
//! The verdicts are bit-parallel, by the library's own algorithm. A row is one
//! u64, the truths of a node at up to 64 moments, the last letter's the lowest
//! bit; bits past the first letter may hold anything.

#![allow(dead_code)]

use super::types::Letter;

const MAX_LETTERS: usize = 64;
const MAX_PSL_NODES: usize = 1024;
const MAX_LTL_NODES: usize = 4096;
const MAX_LINE: usize = 16384;
const SIGNALS: u16 = 32;

// ---------------------------------------------------------------- checks

/// What the two places of a kind hold, by limits: a place holds a number
/// below its limit, and `OPERAND` stands for the node's own number. Then
/// whether the operand left and the one right have to be formulas.
type Shape = (u16, u16, [bool; 2]);

const OPERAND: u16 = 0;
const UNUSED: u16 = 1;

/// One shape a PSL kind: true, var, bnot, band, weak, strong, not, and, next,
/// until, abort. Kinds from 4 on are formulas.
const PSL_SHAPES: [Shape; 11] = [
    (UNUSED, UNUSED, [false, false]),
    (SIGNALS, UNUSED, [false, false]),
    (OPERAND, UNUSED, [false, false]),
    (OPERAND, OPERAND, [false, false]),
    (OPERAND, UNUSED, [false, false]),
    (OPERAND, UNUSED, [false, false]),
    (OPERAND, UNUSED, [true, false]),
    (OPERAND, OPERAND, [true, true]),
    (OPERAND, UNUSED, [true, false]),
    (OPERAND, OPERAND, [true, true]),
    (OPERAND, OPERAND, [true, false]),
];

/// One shape an LTL kind: true, var, not, and, or, next, until.
const LTL_SHAPES: [Shape; 7] = [
    (UNUSED, UNUSED, [false, false]),
    (SIGNALS, UNUSED, [false, false]),
    (OPERAND, UNUSED, [false, false]),
    (OPERAND, OPERAND, [false, false]),
    (OPERAND, OPERAND, [false, false]),
    (OPERAND, UNUSED, [false, false]),
    (OPERAND, OPERAND, [false, false]),
];

fn limit(place: u16, node: usize) -> usize {
    if place == OPERAND {
        node
    } else {
        place as usize
    }
}

fn is_formula(kind: u16) -> bool {
    kind > 3
}

/// Whether a node has the shape, but for the sorts of its operands.
fn is_low(shape: Shape, left: usize, right: usize, node: usize) -> bool {
    left < limit(shape.0, node) && right < limit(shape.1, node)
}

pub fn check_ltl(table: &[u16]) -> Option<()> {
    let nodes = table.len() / 3;
    if table.len() % 3 != 0 || nodes == 0 || nodes > MAX_LTL_NODES {
        return None;
    }
    for (node, triple) in table.chunks_exact(3).enumerate() {
        let (left, right) = (triple[1] as usize, triple[2] as usize);
        let shape = *LTL_SHAPES.get(triple[0] as usize)?;
        if !is_low(shape, left, right, node) {
            return None;
        }
    }
    Some(())
}

pub fn check_psl(table: &[u16]) -> Option<()> {
    let nodes = table.len() / 3;
    if table.len() % 3 != 0 || nodes == 0 || nodes > MAX_PSL_NODES {
        return None;
    }
    // No node is its own operand or that of a lower one, so the last is never
    // used; each other one is used once if none is used twice and the uses
    // are one fewer than the nodes.
    let mut used = [false; MAX_PSL_NODES];
    let mut twice = false;
    let mut uses = 0;
    for (node, triple) in table.chunks_exact(3).enumerate() {
        let (left, right) = (triple[1] as usize, triple[2] as usize);
        let shape = *PSL_SHAPES.get(triple[0] as usize)?;
        if !is_low(shape, left, right, node) {
            return None;
        }
        let sides = [(shape.0, left), (shape.1, right)];
        for (side, (place, operand)) in sides.into_iter().enumerate() {
            if place == OPERAND {
                if is_formula(table[3 * operand]) != shape.2[side] {
                    return None;
                }
                twice |= used[operand];
                used[operand] = true;
                uses += 1;
            }
        }
    }
    let accepted = !twice && uses == nodes - 1 && is_formula(table[3 * (nodes - 1)]);
    accepted.then_some(())
}

// ------------------------------------------------------------------ rows

/// A trace of 1 to 64 letters, with a row for each signal made when it is
/// first asked for.
struct Rows<'a> {
    lead: &'a [Letter],
    cycle: &'a [Letter],
    signals: [u64; SIGNALS as usize],
    known: Letter,
}

impl<'a> Rows<'a> {
    fn new(lead: &'a [Letter], cycle: &'a [Letter]) -> Rows<'a> {
        Rows {
            lead,
            cycle,
            signals: [0; SIGNALS as usize],
            known: 0,
        }
    }

    fn signal(&mut self, signal: u16) -> u64 {
        let at = signal as usize % SIGNALS as usize;
        if self.known >> at & 1 == 0 {
            let mut row = 0;
            for letter in self.lead {
                row = 2 * row + (letter >> at & 1) as u64;
            }
            for letter in self.cycle {
                row = 2 * row + (letter >> at & 1) as u64;
            }
            self.signals[at] = row;
            self.known |= 1 << at;
        }
        self.signals[at]
    }

    /// The truth at the cycle's first moment; no on a finite trace.
    fn round(&self, row: u64) -> u64 {
        match self.cycle.len() {
            0 => 0,
            period => row >> ((period - 1) % MAX_LETTERS) & 1,
        }
    }

    fn next(&self, f: u64) -> u64 {
        f << 1 | self.round(f)
    }

    /// One sweep from no; on a cycle a second one from what the first gave at
    /// the cycle's first moment.
    fn until(&self, f: u64, g: u64) -> u64 {
        let once = sweep(f, g, 0);
        if self.cycle.is_empty() {
            once
        } else {
            sweep(f, g, self.round(once))
        }
    }

    /// A row's truth at moment 0.
    fn first(&self, row: u64) -> bool {
        row >> ((self.lead.len() + self.cycle.len() - 1) % MAX_LETTERS) & 1 == 1
    }
}

/// Where g holds at some lower bit or here, and f at every bit from here down
/// to above that one, as the carries of a sum.
fn sweep(f: u64, g: u64, carry: u64) -> u64 {
    let sum = (f | g).wrapping_add(g).wrapping_add(carry);
    g | f & !sum
}

// -------------------------------------------------------------- verdicts

/// Row of the root of an accepted LTL table; `rows` is space for all nodes.
fn ltl_row(table: &[u16], trace: &mut Rows, rows: &mut Vec<u64>) -> u64 {
    rows.resize(table.len() / 3, 0);
    let mut row = 0;
    for (node, triple) in table.chunks_exact(3).enumerate() {
        let (left, right) = (triple[1] as usize, triple[2] as usize);
        row = match triple[0] {
            0 => u64::MAX,
            1 => trace.signal(triple[1]),
            2 => !rows[left],
            3 => rows[left] & rows[right],
            4 => rows[left] | rows[right],
            5 => trace.next(rows[left]),
            _ => trace.until(rows[left], rows[right]),
        };
        rows[node] = row;
    }
    row
}

pub fn ltl_verdict(table: &[u16], lead: &[Letter], cycle: &[Letter]) -> Option<bool> {
    check_ltl(table)?;
    let letters = lead.len() + cycle.len();
    if letters == 0 || letters > MAX_LETTERS {
        return None;
    }
    let mut trace = Rows::new(lead, cycle);
    let row = ltl_row(table, &mut trace, &mut Vec::new());
    Some(trace.first(row))
}

/// Row of a Boolean of an accepted PSL table.
fn boolean_row(table: &[u16], node: u16, trace: &mut Rows) -> u64 {
    let triple = &table[3 * node as usize..][..3];
    match triple[0] {
        0 => u64::MAX,
        1 => trace.signal(triple[1]),
        2 => !boolean_row(table, triple[1], trace),
        _ => boolean_row(table, triple[1], trace) & boolean_row(table, triple[2], trace),
    }
}

/// Row of a formula of an accepted PSL table between two rows: where aborts
/// around it accept, and where they reject.
fn formula_row(table: &[u16], node: u16, accept: u64, reject: u64, trace: &mut Rows) -> u64 {
    let triple = &table[3 * node as usize..][..3];
    let (left, right) = (triple[1], triple[2]);
    match triple[0] {
        4 | 5 => accept | boolean_row(table, left, trace) & !reject,
        6 => !formula_row(table, left, reject, accept, trace),
        7 => {
            let f = formula_row(table, left, accept, reject, trace);
            f & formula_row(table, right, accept, reject, trace)
        }
        8 => {
            let f = formula_row(table, left, accept, reject, trace);
            accept | trace.next(f) & !reject
        }
        9 => {
            let f = formula_row(table, left, accept, reject, trace);
            let g = formula_row(table, right, accept, reject, trace);
            trace.until(f, g)
        }
        _ => {
            let b = boolean_row(table, right, trace);
            formula_row(table, left, accept | b & !reject, reject, trace)
        }
    }
}

fn root(table: &[u16]) -> u16 {
    (table.len() / 3 - 1) as u16
}

pub fn psl_verdict(table: &[u16], lead: &[Letter], cycle: &[Letter]) -> Option<bool> {
    check_psl(table)?;
    let letters = lead.len() + cycle.len();
    if letters == 0 || letters > MAX_LETTERS {
        return None;
    }
    let mut trace = Rows::new(lead, cycle);
    let row = formula_row(table, root(table), 0, 0, &mut trace);
    Some(trace.first(row))
}

// ------------------------------------------------------------ translator

/// Nodes emitted for each PSL kind.
const EMITTED: [u8; 11] = [1, 1, 1, 1, 3, 3, 1, 1, 4, 1, 3];

/// A translation under way; `out` has room for all of it.
struct Emitter<'a> {
    table: &'a [u16],
    out: &'a mut [u16],
    count: u16,
}

impl<'a> Emitter<'a> {
    fn emit(&mut self, kind: u16, left: u16, right: u16) -> u16 {
        let own = self.count;
        self.out[3 * own as usize..][..3].copy_from_slice(&[kind, left, right]);
        self.count += 1;
        own
    }

    /// Accepted, or holding and not rejected: not, and, or.
    fn guard(&mut self, f: u16, accept: u16, reject: u16) -> u16 {
        let own = self.count;
        let nodes = [2, reject, 0, 3, f, own, 4, accept, own + 1];
        self.out[3 * own as usize..][..9].copy_from_slice(&nodes);
        self.count += 3;
        own + 2
    }

    fn walk(&mut self, node: u16, accept: u16, reject: u16) -> u16 {
        let triple = &self.table[3 * node as usize..][..3];
        let (kind, left, right) = (triple[0], triple[1], triple[2]);
        match kind {
            0 => self.emit(0, 0, 0),
            1 => self.emit(1, left, 0),
            2 => {
                let b = self.walk(left, accept, reject);
                self.emit(2, b, 0)
            }
            4 | 5 => {
                let b = self.walk(left, accept, reject);
                self.guard(b, accept, reject)
            }
            6 => {
                let f = self.walk(left, reject, accept);
                self.emit(2, f, 0)
            }
            8 => {
                let f = self.walk(left, accept, reject);
                let next = self.emit(5, f, 0);
                self.guard(next, accept, reject)
            }
            10 => {
                let b = self.walk(right, accept, reject);
                let accept = self.guard(b, accept, reject);
                self.walk(left, accept, reject)
            }
            _ => {
                let f = self.walk(left, accept, reject);
                let g = self.walk(right, accept, reject);
                self.emit(if kind == 9 { 6 } else { 3 }, f, g)
            }
        }
    }
}

/// The nodes emitted.
pub fn translate(table: &[u16], out: &mut [u16]) -> Option<usize> {
    check_psl(table)?;
    let size = table.chunks_exact(3).fold(2, |size, triple| {
        size + EMITTED[triple[0] as usize] as usize
    });
    let mut emitter = Emitter {
        table,
        out: out.get_mut(..3 * size)?,
        count: 0,
    };
    emitter.emit(0, 0, 0);
    emitter.emit(2, 0, 0);
    emitter.walk(root(table), 1, 1);
    Some(size)
}

// ----------------------------------------------------------------- lines

/// The bytes of a line still to be read.
struct Bytes<'a>(&'a [u8]);

impl<'a> Bytes<'a> {
    fn expect<const N: usize>(&mut self, text: &[u8; N]) -> Option<()> {
        let (first, rest) = self.0.split_first_chunk::<N>()?;
        if first != text {
            return None;
        }
        self.0 = rest;
        Some(())
    }

    /// A byte some places on.
    fn peek(&self, ahead: usize) -> Option<u8> {
        self.0.get(ahead).copied()
    }

    /// A number of at most ten digits.
    fn number(&mut self) -> Option<u64> {
        let mut value = 0u64;
        let mut digits = 0;
        while let Some(&byte) = self.0.get(digits) {
            let digit = byte.wrapping_sub(b'0');
            if digit > 9 {
                break;
            }
            value = value.wrapping_mul(10).wrapping_add(digit as u64);
            digits += 1;
        }
        if digits == 0 || digits > 10 || (digits > 1 && self.0[0] == b'0') {
            return None;
        }
        self.0 = &self.0[digits..];
        Some(value)
    }

    fn end(&self) -> Option<()> {
        self.0.is_empty().then_some(())
    }
}

/// A formula line being read.
struct FormulaReader<'a> {
    bytes: Bytes<'a>,
    table: Vec<u16>,
}

impl<'a> FormulaReader<'a> {
    fn node(&mut self, kind: u16, left: u16, right: u16) -> Option<u16> {
        let own = self.table.len() / 3;
        self.table.extend_from_slice(&[kind, left, right]);
        (own < MAX_PSL_NODES).then_some(own as u16)
    }

    fn closed(&mut self, kind: u16, left: u16, right: u16) -> Option<u16> {
        self.bytes.expect(b")")?;
        self.node(kind, left, right)
    }

    fn boolean(&mut self) -> Option<u16> {
        match (self.bytes.peek(1)?, self.bytes.peek(2)?) {
            (b'r', _) => {
                self.bytes.expect(b"true")?;
                self.node(0, 0, 0)
            }
            (b'v', _) => {
                self.bytes.expect(b"(var ")?;
                let signal = self.bytes.number()?;
                if signal >= SIGNALS as u64 {
                    return None;
                }
                self.closed(1, signal as u16, 0)
            }
            (b'b', b'n') => {
                self.bytes.expect(b"(bnot ")?;
                let b = self.boolean()?;
                self.closed(2, b, 0)
            }
            _ => {
                self.bytes.expect(b"(band ")?;
                let b = self.boolean()?;
                self.bytes.expect(b" ")?;
                let c = self.boolean()?;
                self.closed(3, b, c)
            }
        }
    }

    fn two_formulas(&mut self, kind: u16) -> Option<u16> {
        let f = self.formula()?;
        self.bytes.expect(b" ")?;
        let g = self.formula()?;
        self.closed(kind, f, g)
    }

    fn formula(&mut self) -> Option<u16> {
        match (self.bytes.peek(1)?, self.bytes.peek(2)?) {
            (b'w', _) => {
                self.bytes.expect(b"(weak ")?;
                let b = self.boolean()?;
                self.closed(4, b, 0)
            }
            (b's', _) => {
                self.bytes.expect(b"(strong ")?;
                let b = self.boolean()?;
                self.closed(5, b, 0)
            }
            (b'n', b'o') => {
                self.bytes.expect(b"(not ")?;
                let f = self.formula()?;
                self.closed(6, f, 0)
            }
            (b'n', _) => {
                self.bytes.expect(b"(next ")?;
                let f = self.formula()?;
                self.closed(8, f, 0)
            }
            (b'a', b'n') => {
                self.bytes.expect(b"(and ")?;
                self.two_formulas(7)
            }
            (b'u', _) => {
                self.bytes.expect(b"(until ")?;
                self.two_formulas(9)
            }
            _ => {
                self.bytes.expect(b"(abort ")?;
                let f = self.formula()?;
                self.bytes.expect(b" ")?;
                let b = self.boolean()?;
                self.closed(10, f, b)
            }
        }
    }

    fn line(&mut self) -> Option<()> {
        self.bytes.expect(b"(psl ")?;
        self.formula()?;
        self.bytes.expect(b")")?;
        self.bytes.end()
    }
}

/// The nodes of the line.
pub fn read_formula(line: &[u8], out: &mut [u16]) -> Option<usize> {
    if line.len() > MAX_LINE {
        return None;
    }
    let mut reader = FormulaReader {
        bytes: Bytes(line),
        // No form takes fewer than four bytes.
        table: Vec::with_capacity(3 * (line.len() / 4).min(MAX_PSL_NODES)),
    };
    reader.line()?;
    let table = &reader.table;
    out.get_mut(..table.len())?.copy_from_slice(table);
    Some(table.len() / 3)
}

/// A trace line being read.
struct TraceReader<'a> {
    bytes: Bytes<'a>,
    /// The first 64 letters of both lists.
    letters: [Letter; MAX_LETTERS],
    count: usize,
    high_letter: bool,
}

impl<'a> TraceReader<'a> {
    fn letter(&mut self) -> Option<()> {
        let value = self.bytes.number()?;
        self.high_letter |= value > Letter::MAX as u64;
        if let Some(place) = self.letters.get_mut(self.count) {
            *place = value as Letter;
        }
        self.count += 1;
        Some(())
    }

    /// Any count of space and letter, then the closing bracket.
    fn more_letters(&mut self) -> Option<()> {
        while self.bytes.peek(0)? == b' ' {
            self.bytes.0 = &self.bytes.0[1..];
            self.letter()?;
        }
        self.bytes.expect(b")")
    }

    /// Returns the length of the lead-in.
    fn line(&mut self) -> Option<usize> {
        if self.bytes.expect(b"(finite").is_some() {
            self.more_letters()?;
            self.bytes.end()?;
            return Some(self.count);
        }
        self.bytes.expect(b"(lasso (")?;
        if self.bytes.expect(b")").is_none() {
            self.letter()?;
            self.more_letters()?;
        }
        let lead = self.count;
        self.bytes.expect(b" (")?;
        self.letter()?;
        self.more_letters()?;
        self.bytes.expect(b")")?;
        self.bytes.end()?;
        Some(lead)
    }
}

/// Both lengths.
pub fn read_trace(
    line: &[u8],
    lead: &mut [Letter],
    cycle: &mut [Letter],
) -> Option<(usize, usize)> {
    if line.len() > MAX_LINE {
        return None;
    }
    let mut reader = TraceReader {
        bytes: Bytes(line),
        letters: [0; MAX_LETTERS],
        count: 0,
        high_letter: false,
    };
    let lead_length = reader.line()?;
    if reader.high_letter || reader.count > MAX_LETTERS {
        return None;
    }
    let (first, second) = reader.letters[..reader.count].split_at(lead_length);
    lead.get_mut(..first.len())?.copy_from_slice(first);
    cycle.get_mut(..second.len())?.copy_from_slice(second);
    Some((first.len(), second.len()))
}

/// A line being put together, with room for the longest.
struct Text {
    bytes: [u8; 80],
    length: usize,
}

impl Text {
    fn new() -> Text {
        Text {
            bytes: [0; 80],
            length: 0,
        }
    }

    fn put<const N: usize>(&mut self, text: &[u8; N]) {
        self.bytes[self.length..][..N].copy_from_slice(text);
        self.length += N;
    }

    fn put_word(&mut self, word: &Word) {
        self.bytes[self.length..][..8].copy_from_slice(word.0);
        self.length += word.1;
    }

    fn put_number(&mut self, mut value: usize) {
        let mut end = 1;
        let mut power = 10;
        while value >= power {
            end += 1;
            power *= 10;
        }
        let digits = &mut self.bytes[self.length..][..end];
        for digit in digits.iter_mut().rev() {
            *digit = b'0' + (value % 10) as u8;
            value /= 10;
        }
        self.length += end;
    }

    fn bytes(&self) -> &[u8] {
        &self.bytes[..self.length]
    }
}

/// Text in a fixed width, and how much of it counts.
type Word = (&'static [u8; 8], usize);

/// What follows the own number in a node line, by LTL kind.
const LTL_WORDS: [Word; 7] = [
    (b" true   ", 5),
    (b" var    ", 5),
    (b" not    ", 5),
    (b" and    ", 5),
    (b" or     ", 4),
    (b" next   ", 6),
    (b" until  ", 7),
];

/// The bytes of the line, its byte 10 among them.
pub fn write_node(own: u16, kind: u16, left: u16, right: u16, out: &mut [u8]) -> Option<usize> {
    let node = own as usize;
    let shape = *LTL_SHAPES.get(kind as usize)?;
    if node >= MAX_LTL_NODES || !is_low(shape, left as usize, right as usize, node) {
        return None;
    }
    let mut text = Text::new();
    text.put(b"(");
    text.put_number(node);
    text.put_word(&LTL_WORDS[kind as usize]);
    if shape.0 != UNUSED {
        text.put_number(left as usize);
    }
    if shape.1 != UNUSED {
        text.put(b" ");
        text.put_number(right as usize);
    }
    text.put(b")\n");
    out.get_mut(..text.length)?.copy_from_slice(text.bytes());
    Some(text.length)
}

// ------------------------------------------------------------- whole run

const ANSWERS: [Word; 2] = [(b" no     ", 3), (b" yes    ", 4)];

/// A whole run under way: the tables of its formula line.
pub struct Run {
    psl: Vec<u16>,
    ltl: Vec<u16>,
    rows: Vec<u64>,
    traces: usize,
}

impl Run {
    /// Takes line 1 without its byte 10 and adds what it prints.
    pub fn new(line: &[u8], output: &mut Vec<u8>) -> Option<Run> {
        let mut psl = vec![0; 3 * MAX_PSL_NODES];
        let nodes = read_formula(line, &mut psl)?;
        psl.truncate(3 * nodes);
        let mut ltl = vec![0; 3 * MAX_LTL_NODES];
        let size = translate(&psl, &mut ltl)?;
        ltl.truncate(3 * size);

        let mut text = Text::new();
        text.put(b"(ltl ");
        text.put_number(size);
        text.put(b")\n");
        output.extend_from_slice(text.bytes());
        let mut line = [0u8; 32];
        for (node, triple) in ltl.chunks_exact(3).enumerate() {
            let length = write_node(node as u16, triple[0], triple[1], triple[2], &mut line)?;
            output.extend_from_slice(&line[..length]);
        }
        Some(Run {
            psl,
            ltl,
            rows: Vec::new(),
            traces: 0,
        })
    }

    /// Takes a trace line without its byte 10 and adds what it prints.
    pub fn trace_line(&mut self, line: &[u8], output: &mut Vec<u8>) -> Option<()> {
        let (mut lead, mut cycle) = ([0; MAX_LETTERS], [0; MAX_LETTERS]);
        let (lead_length, cycle_length) = read_trace(line, &mut lead, &mut cycle)?;
        if lead_length + cycle_length == 0 {
            return None;
        }
        let mut trace = Rows::new(&lead[..lead_length], &cycle[..cycle_length]);
        let psl = formula_row(&self.psl, root(&self.psl), 0, 0, &mut trace);
        let ltl = ltl_row(&self.ltl, &mut trace, &mut self.rows);
        self.traces += 1;
        let mut text = Text::new();
        text.put(b"(trace ");
        text.put_number(self.traces);
        text.put(b" psl");
        text.put_word(&ANSWERS[trace.first(psl) as usize]);
        text.put(b" ltl");
        text.put_word(&ANSWERS[trace.first(ltl) as usize]);
        text.put(b")\n");
        output.extend_from_slice(text.bytes());
        Some(())
    }
}
