//! A separate evaluator of PSL sheets, LTL tables, lines and whole runs.
//!
//! It exists to be compared with another implementation, so each rule is
//! written out in the plainest way. PSL formulas are judged on words with the
//! letters TOP and BOTTOM, straight from the definition; nothing here judges
//! a PSL formula by translating it.
//!
//! A refused operation leaves every lent list as it was.

#![allow(dead_code)]

use super::types::{refused, refused_at, Letter, Refusal};
use std::cell::RefCell;
use std::collections::HashMap;

/// Most letters a verdict takes, lead-in and cycle together.
pub const MAX_LETTERS: usize = 64;
/// Most nodes of a PSL table.
pub const MAX_PSL_NODES: usize = 1024;
/// Most nodes of an LTL table.
pub const MAX_LTL_NODES: usize = 4096;
/// Most bytes of a line, its line end not counted.
pub const MAX_LINE: usize = 16384;
/// The highest signal.
pub const MAX_SIGNAL: u16 = 31;

pub const PSL_TRUE: u16 = 0;
pub const PSL_VAR: u16 = 1;
pub const PSL_BNOT: u16 = 2;
pub const PSL_BAND: u16 = 3;
pub const PSL_WEAK: u16 = 4;
pub const PSL_STRONG: u16 = 5;
pub const PSL_NOT: u16 = 6;
pub const PSL_AND: u16 = 7;
pub const PSL_NEXT: u16 = 8;
pub const PSL_UNTIL: u16 = 9;
pub const PSL_ABORT: u16 = 10;

pub const LTL_TRUE: u16 = 0;
pub const LTL_VAR: u16 = 1;
pub const LTL_NOT: u16 = 2;
pub const LTL_AND: u16 = 3;
pub const LTL_OR: u16 = 4;
pub const LTL_NEXT: u16 = 5;
pub const LTL_UNTIL: u16 = 6;

// ---------------------------------------------------------------- tables

#[derive(Clone, Copy, PartialEq, Eq, Debug)]
pub enum Sort {
    Boolean,
    Formula,
}

/// What one of the two places of a node holds.
#[derive(Clone, Copy, PartialEq, Eq, Debug)]
pub enum Place {
    Unused,
    Signal,
    Operand(Sort),
}

/// The left and right place of a PSL kind; none for an unknown kind.
pub fn psl_places(kind: u16) -> Option<[Place; 2]> {
    let boolean = Place::Operand(Sort::Boolean);
    let formula = Place::Operand(Sort::Formula);
    match kind {
        PSL_TRUE => Some([Place::Unused, Place::Unused]),
        PSL_VAR => Some([Place::Signal, Place::Unused]),
        PSL_BNOT => Some([boolean, Place::Unused]),
        PSL_BAND => Some([boolean, boolean]),
        PSL_WEAK | PSL_STRONG => Some([boolean, Place::Unused]),
        PSL_NOT | PSL_NEXT => Some([formula, Place::Unused]),
        PSL_AND | PSL_UNTIL => Some([formula, formula]),
        PSL_ABORT => Some([formula, boolean]),
        _ => None,
    }
}

/// The sort of a known PSL kind.
pub fn psl_sort(kind: u16) -> Sort {
    match kind {
        PSL_TRUE | PSL_VAR | PSL_BNOT | PSL_BAND => Sort::Boolean,
        _ => Sort::Formula,
    }
}

/// The left and right place of an LTL kind; none for an unknown kind.
/// LTL has one sort only.
pub fn ltl_places(kind: u16) -> Option<[Place; 2]> {
    let operand = Place::Operand(Sort::Formula);
    match kind {
        LTL_TRUE => Some([Place::Unused, Place::Unused]),
        LTL_VAR => Some([Place::Signal, Place::Unused]),
        LTL_NOT | LTL_NEXT => Some([operand, Place::Unused]),
        LTL_AND | LTL_OR | LTL_UNTIL => Some([operand, operand]),
        _ => None,
    }
}

/// Kind, left and right of a node.
fn node_of(table: &[u16], node: usize) -> (u16, u16, u16) {
    (table[3 * node], table[3 * node + 1], table[3 * node + 2])
}

/// The tests on the two places that both tables share, in their order:
/// unused place not 0, signal above 31, operand not below its user.
/// `numbers` are those of the three refusals, whose place is the user.
fn check_places(
    places: [Place; 2],
    values: [u16; 2],
    user: usize,
    numbers: [u8; 3],
) -> Result<(), Refusal> {
    let both = [(places[0], values[0]), (places[1], values[1])];
    for (place, value) in both {
        if place == Place::Unused && value != 0 {
            return Err(refused_at(numbers[0], user));
        }
    }
    for (place, value) in both {
        if place == Place::Signal && value > MAX_SIGNAL {
            return Err(refused_at(numbers[1], user));
        }
    }
    for (place, value) in both {
        if matches!(place, Place::Operand(_)) && value as usize >= user {
            return Err(refused_at(numbers[2], user));
        }
    }
    Ok(())
}

/// PSL check, refusals 1 to 8. 2 to 6 carry the node whose turn it is, 7 the
/// lowest node that it is said of, 8 the last.
pub fn check_psl(table: &[u16]) -> Result<(), Refusal> {
    let nodes = table.len() / 3;
    if table.len() % 3 != 0 || nodes == 0 || nodes > MAX_PSL_NODES {
        return Err(refused(1));
    }
    for node in 0..nodes {
        let (kind, left, right) = node_of(table, node);
        let places = psl_places(kind).ok_or(refused_at(2, node))?;
        check_places(places, [left, right], node, [3, 4, 5])?;
        for (place, value) in [(places[0], left), (places[1], right)] {
            if let Place::Operand(sort) = place {
                if psl_sort(table[3 * value as usize]) != sort {
                    return Err(refused_at(6, node));
                }
            }
        }
    }
    let mut uses = vec![0usize; nodes];
    for node in 0..nodes {
        let (kind, left, right) = node_of(table, node);
        let places = psl_places(kind).unwrap();
        for (place, value) in [(places[0], left), (places[1], right)] {
            if matches!(place, Place::Operand(_)) {
                uses[value as usize] += 1;
            }
        }
    }
    let last = nodes - 1;
    if let Some(node) = uses[..last].iter().position(|&count| count != 1) {
        return Err(refused_at(7, node));
    }
    if psl_sort(table[3 * last]) == Sort::Boolean {
        return Err(refused_at(8, last));
    }
    Ok(())
}

/// LTL check, refusals 11 to 15. 12 to 15 carry the node whose turn it is.
pub fn check_ltl(table: &[u16]) -> Result<(), Refusal> {
    let nodes = table.len() / 3;
    if table.len() % 3 != 0 || nodes == 0 || nodes > MAX_LTL_NODES {
        return Err(refused(11));
    }
    for node in 0..nodes {
        let (kind, left, right) = node_of(table, node);
        let places = ltl_places(kind).ok_or(refused_at(12, node))?;
        check_places(places, [left, right], node, [13, 14, 15])?;
    }
    Ok(())
}

// ----------------------------------------------------------------- words

/// A letter of a word: one of the trace, or one of the two special ones.
#[derive(Clone, Copy, PartialEq, Eq, Hash, Debug)]
pub enum WordLetter {
    Plain(Letter),
    Top,
    Bottom,
}

/// A word: the prefix, then the cycle over and over. An empty cycle means
/// that the word ends after the prefix.
///
/// `Word::new` brings every word to one normal form, so that equal words are
/// equal values: the cycle is its own shortest period and the prefix is as
/// short as it can be.
#[derive(Clone, PartialEq, Eq, Hash, Debug)]
pub struct Word {
    prefix: Vec<WordLetter>,
    cycle: Vec<WordLetter>,
}

impl Word {
    pub fn new(mut prefix: Vec<WordLetter>, mut cycle: Vec<WordLetter>) -> Word {
        let size = cycle.len();
        for period in 1..size {
            if size % period == 0 && (period..size).all(|i| cycle[i] == cycle[i - period]) {
                cycle.truncate(period);
                break;
            }
        }
        while !cycle.is_empty() && prefix.last() == cycle.last() {
            prefix.pop();
            cycle.rotate_right(1);
        }
        Word { prefix, cycle }
    }

    /// The word of a trace.
    pub fn of_trace(lead: &[Letter], cycle: &[Letter]) -> Word {
        Word::new(
            lead.iter().map(|&l| WordLetter::Plain(l)).collect(),
            cycle.iter().map(|&l| WordLetter::Plain(l)).collect(),
        )
    }

    /// The letter at a moment; none past the end of a finite word.
    pub fn letter(&self, moment: usize) -> Option<WordLetter> {
        if moment < self.prefix.len() {
            Some(self.prefix[moment])
        } else if self.cycle.is_empty() {
            None
        } else {
            Some(self.cycle[(moment - self.prefix.len()) % self.cycle.len()])
        }
    }

    /// The word from a moment inside it on, or from its very end.
    pub fn suffix(&self, moment: usize) -> Word {
        let size = self.prefix.len();
        if moment <= size {
            return Word::new(self.prefix[moment..].to_vec(), self.cycle.clone());
        }
        assert!(!self.cycle.is_empty(), "suffix from past the end");
        let mut cycle = self.cycle.clone();
        cycle.rotate_left((moment - size) % self.cycle.len());
        Word::new(Vec::new(), cycle)
    }

    /// TOP and BOTTOM exchanged.
    pub fn dual(&self) -> Word {
        let exchange = |letter: &WordLetter| match *letter {
            WordLetter::Plain(l) => WordLetter::Plain(l),
            WordLetter::Top => WordLetter::Bottom,
            WordLetter::Bottom => WordLetter::Top,
        };
        Word::new(
            self.prefix.iter().map(exchange).collect(),
            self.cycle.iter().map(exchange).collect(),
        )
    }

    /// The first letters, as many as said, followed by TOP for ever.
    pub fn cut(&self, first: usize) -> Word {
        let kept = (0..first).map(|j| self.letter(j).expect("cut inside the word"));
        Word::new(kept.collect(), vec![WordLetter::Top])
    }

    /// How many moments a search looks at: the prefix and one round of the
    /// cycle, which is enough.
    ///
    /// Until: from moment prefix + cycle on, the suffix from k is the suffix
    /// from k - cycle, so whatever holds from k on has held one round
    /// before, and the earliest witness lies below prefix + cycle.
    ///
    /// Abort: letters repeat in the same way, but the word cut at k differs
    /// from the one cut a round earlier. Order letters BOTTOM below plain
    /// below TOP (plain letters only below themselves) and words of one
    /// length letter by letter. By induction on the formula, what holds on a
    /// word holds on every higher one; `not` keeps this since the dual turns
    /// the order round. Cut later, a word is lower. So if some cut will do,
    /// the one at the earliest moment whose letter satisfies the Boolean
    /// does too, and that moment lies below prefix + cycle.
    fn moments(&self) -> usize {
        self.prefix.len() + self.cycle.len()
    }
}

// ----------------------------------------------------------- PSL verdict

/// Judges the nodes of one accepted table on words. Words are numbered as
/// they turn up and each verdict is kept by word and node.
struct Judge<'a> {
    table: &'a [u16],
    nodes: usize,
    words: Vec<Word>,
    number_of: HashMap<Word, usize>,
    tail_of: Vec<Option<usize>>,
    dual_of: Vec<Option<usize>>,
    known: Vec<Option<bool>>,
}

impl<'a> Judge<'a> {
    fn new(table: &'a [u16]) -> Judge<'a> {
        Judge {
            table,
            nodes: table.len() / 3,
            words: Vec::new(),
            number_of: HashMap::new(),
            tail_of: Vec::new(),
            dual_of: Vec::new(),
            known: Vec::new(),
        }
    }

    /// The number of a word, a new one if it is new.
    fn number(&mut self, word: Word) -> usize {
        if let Some(&number) = self.number_of.get(&word) {
            return number;
        }
        let number = self.words.len();
        self.number_of.insert(word.clone(), number);
        self.words.push(word);
        self.tail_of.push(None);
        self.dual_of.push(None);
        self.known.resize(self.words.len() * self.nodes, None);
        number
    }

    /// The word from its second letter on. The word is not empty.
    fn tail(&mut self, word: usize) -> usize {
        if let Some(tail) = self.tail_of[word] {
            return tail;
        }
        let made = self.words[word].suffix(1);
        let tail = self.number(made);
        self.tail_of[word] = Some(tail);
        tail
    }

    fn dual(&mut self, word: usize) -> usize {
        if let Some(dual) = self.dual_of[word] {
            return dual;
        }
        let made = self.words[word].dual();
        let dual = self.number(made);
        self.dual_of[word] = Some(dual);
        dual
    }

    /// A letter satisfies a Boolean node. TOP satisfies every Boolean and
    /// BOTTOM none, whatever the Boolean is made of.
    fn satisfies(&self, letter: WordLetter, node: usize) -> bool {
        let bits = match letter {
            WordLetter::Top => return true,
            WordLetter::Bottom => return false,
            WordLetter::Plain(bits) => bits,
        };
        let (kind, left, right) = node_of(self.table, node);
        match kind {
            PSL_TRUE => true,
            PSL_VAR => (bits >> left) % 2 == 1,
            PSL_BNOT => !self.satisfies(letter, left as usize),
            PSL_BAND => {
                self.satisfies(letter, left as usize) && self.satisfies(letter, right as usize)
            }
            _ => unreachable!("not a Boolean"),
        }
    }

    /// A formula node holds on a word.
    fn holds(&mut self, node: usize, word: usize) -> bool {
        if let Some(verdict) = self.known[word * self.nodes + node] {
            return verdict;
        }
        let (kind, left, right) = node_of(self.table, node);
        let (left, right) = (left as usize, right as usize);
        let verdict = match kind {
            PSL_WEAK | PSL_STRONG => match self.words[word].letter(0) {
                None => kind == PSL_WEAK,
                Some(letter) => self.satisfies(letter, left),
            },
            PSL_NOT => {
                let dual = self.dual(word);
                !self.holds(left, dual)
            }
            PSL_AND => self.holds(left, word) && self.holds(right, word),
            PSL_NEXT => {
                if self.words[word].letter(1).is_none() {
                    false
                } else {
                    let tail = self.tail(word);
                    self.holds(left, tail)
                }
            }
            PSL_UNTIL => self.until_holds(left, right, word),
            PSL_ABORT => self.holds(left, word) || self.abort_holds(left, right, word),
            _ => unreachable!("not a formula"),
        };
        self.known[word * self.nodes + node] = Some(verdict);
        verdict
    }

    /// At some moment `right` holds from there on, and `left` holds from
    /// every earlier moment on.
    fn until_holds(&mut self, left: usize, right: usize, word: usize) -> bool {
        let mut from_here = word;
        for _moment in 0..self.words[word].moments() {
            if self.holds(right, from_here) {
                return true;
            }
            if !self.holds(left, from_here) {
                return false;
            }
            from_here = self.tail(from_here);
        }
        false
    }

    /// At some moment the letter satisfies the Boolean `right`, and `left`
    /// holds on the letters before it followed by TOP for ever.
    fn abort_holds(&mut self, left: usize, right: usize, word: usize) -> bool {
        for moment in 0..self.words[word].moments() {
            let letter = self.words[word].letter(moment).unwrap();
            if self.satisfies(letter, right) {
                let made = self.words[word].cut(moment);
                let cut = self.number(made);
                if self.holds(left, cut) {
                    return true;
                }
            }
        }
        false
    }
}

/// PSL verdict, refusals 1 to 8 and 9.
pub fn psl_verdict(table: &[u16], lead: &[Letter], cycle: &[Letter]) -> Result<bool, Refusal> {
    check_psl(table)?;
    if lead.len() + cycle.len() > MAX_LETTERS {
        return Err(refused(9));
    }
    let mut judge = Judge::new(table);
    let word = judge.number(Word::of_trace(lead, cycle));
    Ok(judge.holds(table.len() / 3 - 1, word))
}

// ----------------------------------------------------------- LTL verdict

/// The listed moment that has the truths of this one: past the lists, the
/// one a whole number of rounds earlier. None past the end of a finite trace.
fn listed(lead: &[Letter], cycle: &[Letter], moment: usize) -> Option<usize> {
    if moment < lead.len() + cycle.len() {
        Some(moment)
    } else if cycle.is_empty() {
        None
    } else {
        Some(lead.len() + (moment - lead.len()) % cycle.len())
    }
}

/// The truth of a node at a listed moment, by those of the nodes before it.
fn ltl_truth(
    node: (u16, u16, u16),
    truth: &[Vec<bool>],
    lead: &[Letter],
    cycle: &[Letter],
    moment: usize,
) -> bool {
    let (kind, left, right) = node;
    let (l, r) = (left as usize, right as usize);
    match kind {
        LTL_TRUE => true,
        LTL_VAR => letter_at(lead, cycle, moment).is_ok_and(|letter| (letter >> left) % 2 == 1),
        LTL_NOT => !truth[l][moment],
        LTL_AND => truth[l][moment] && truth[r][moment],
        LTL_OR => truth[l][moment] || truth[r][moment],
        LTL_NEXT => listed(lead, cycle, moment + 1).is_some_and(|next| truth[l][next]),
        LTL_UNTIL => {
            // The earliest witness comes at most one round after the moment
            // asked or after the lead-in.
            let mut moments = (moment..lead.len() + 2 * cycle.len())
                .filter_map(|later| listed(lead, cycle, later));
            let decides = moments.find(|&later| truth[r][later] || !truth[l][later]);
            decides.is_some_and(|later| truth[r][later])
        }
        _ => unreachable!("unknown kind"),
    }
}

/// LTL verdict, refusals 11 to 15, 9 and 16.
pub fn ltl_verdict(table: &[u16], lead: &[Letter], cycle: &[Letter]) -> Result<bool, Refusal> {
    check_ltl(table)?;
    let letters = lead.len() + cycle.len();
    if letters > MAX_LETTERS {
        return Err(refused(9));
    }
    if letters == 0 {
        return Err(refused(16));
    }
    let nodes = table.len() / 3;
    let mut truth: Vec<Vec<bool>> = Vec::with_capacity(nodes);
    for node in 0..nodes {
        let here = node_of(table, node);
        let row = (0..letters).map(|moment| ltl_truth(here, &truth, lead, cycle, moment));
        truth.push(row.collect());
    }
    Ok(truth[nodes - 1][0])
}

// ------------------------------------------------------------ translator

/// The size rule for an accepted PSL table.
pub fn translated_size(table: &[u16]) -> usize {
    let mut size = 2;
    for node in table.chunks(3) {
        size += match node[0] {
            PSL_TRUE | PSL_VAR | PSL_BNOT | PSL_BAND => 1,
            PSL_WEAK | PSL_STRONG | PSL_ABORT => 3,
            PSL_NEXT => 4,
            _ => 1,
        };
    }
    size
}

/// The table being emitted.
struct Emitted {
    numbers: Vec<u16>,
}

impl Emitted {
    /// Appends a node and returns its number.
    fn emit(&mut self, kind: u16, left: u16, right: u16) -> u16 {
        let number = (self.numbers.len() / 3) as u16;
        self.numbers.extend_from_slice(&[kind, left, right]);
        number
    }

    /// not reject; and (b, that); or (accept, that)
    fn accept_or_not_rejected(&mut self, b: u16, accept: u16, reject: u16) -> u16 {
        let unrejected = self.emit(LTL_NOT, reject, 0);
        let both = self.emit(LTL_AND, b, unrejected);
        self.emit(LTL_OR, accept, both)
    }

    /// Walks a PSL node and returns the number of its result.
    fn walk(&mut self, table: &[u16], node: u16, accept: u16, reject: u16) -> u16 {
        let (kind, left, right) = node_of(table, node as usize);
        match kind {
            PSL_TRUE => self.emit(LTL_TRUE, 0, 0),
            PSL_VAR => self.emit(LTL_VAR, left, 0),
            PSL_BNOT => {
                let b = self.walk(table, left, accept, reject);
                self.emit(LTL_NOT, b, 0)
            }
            PSL_WEAK | PSL_STRONG => {
                let b = self.walk(table, left, accept, reject);
                self.accept_or_not_rejected(b, accept, reject)
            }
            PSL_NOT => {
                let f = self.walk(table, left, reject, accept);
                self.emit(LTL_NOT, f, 0)
            }
            PSL_BAND | PSL_AND | PSL_UNTIL => {
                let f = self.walk(table, left, accept, reject);
                let g = self.walk(table, right, accept, reject);
                let until = kind == PSL_UNTIL;
                self.emit(if until { LTL_UNTIL } else { LTL_AND }, f, g)
            }
            PSL_NEXT => {
                let f = self.walk(table, left, accept, reject);
                let next = self.emit(LTL_NEXT, f, 0);
                self.accept_or_not_rejected(next, accept, reject)
            }
            PSL_ABORT => {
                let b = self.walk(table, right, accept, reject);
                let new_accept = self.accept_or_not_rejected(b, accept, reject);
                self.walk(table, left, new_accept, reject)
            }
            _ => unreachable!("unknown kind"),
        }
    }
}

/// Translator, refusals 1 to 8 and 10.
pub fn translate(table: &[u16], out: &mut [u16]) -> Result<usize, Refusal> {
    check_psl(table)?;
    let size = translated_size(table);
    if out.len() < 3 * size {
        return Err(refused(10));
    }
    let mut emitted = Emitted {
        numbers: Vec::with_capacity(3 * size),
    };
    emitted.emit(LTL_TRUE, 0, 0);
    emitted.emit(LTL_NOT, 0, 0);
    let root = (table.len() / 3 - 1) as u16;
    emitted.walk(table, root, 1, 1);
    assert_eq!(emitted.numbers.len(), 3 * size, "the size rule");
    out[..3 * size].copy_from_slice(&emitted.numbers);
    Ok(size)
}

// --------------------------------------------------------------- moments

/// Letter of a moment, refusal 25.
pub fn letter_at(lead: &[Letter], cycle: &[Letter], moment: usize) -> Result<Letter, Refusal> {
    if moment < lead.len() {
        Ok(lead[moment])
    } else if cycle.is_empty() {
        Err(refused(25))
    } else {
        Ok(cycle[(moment - lead.len()) % cycle.len()])
    }
}

/// The rest of the list a moment falls in; past both lists, the empty part at
/// the cycle's end.
pub fn rest<'a>(lead: &'a [Letter], cycle: &'a [Letter], moment: usize) -> &'a [Letter] {
    if moment < lead.len() {
        &lead[moment..]
    } else if moment - lead.len() < cycle.len() {
        &cycle[moment - lead.len()..]
    } else {
        &cycle[cycle.len()..]
    }
}

// ----------------------------------------------------------------- lines

/// Bytes of a line still to be read.
struct Reader<'a> {
    bytes: &'a [u8],
    /// How many bytes the whole line has.
    length: usize,
}

/// Refusal 18 arises where a byte stands that nothing of the shape has there,
/// or where the line is over and something is due. What was read before it
/// can be completed, since each part of the shape can: so the place is that
/// of the definition, the first byte with which no line begins any more.
impl<'a> Reader<'a> {
    fn new(line: &'a [u8]) -> Reader<'a> {
        Reader {
            bytes: line,
            length: line.len(),
        }
    }

    /// Nothing of the shape goes on after so many more bytes.
    fn fault(&self, ahead: usize) -> Refusal {
        refused_at(18, self.length - self.bytes.len() + ahead)
    }

    /// How many bytes stand next that a text begins with.
    fn alike(&self, text: &str) -> usize {
        let pairs = self.bytes.iter().zip(text.as_bytes());
        pairs.take_while(|(byte, due)| byte == due).count()
    }

    /// Takes a text if it stands next.
    fn take(&mut self, text: &str) -> bool {
        let here = self.bytes.starts_with(text.as_bytes());
        if here {
            self.bytes = &self.bytes[text.len()..];
        }
        here
    }

    /// The text must stand next.
    fn expect(&mut self, text: &str) -> Result<(), Refusal> {
        if self.take(text) {
            return Ok(());
        }
        Err(self.fault(self.alike(text)))
    }

    /// One of the texts must stand next; what belongs to it. No text begins
    /// another. Where none stands, the one that goes furthest says where.
    fn one_of<T: Copy>(&mut self, texts: &[(&str, T)]) -> Result<T, Refusal> {
        if let Some(&(_, meant)) = texts.iter().find(|(text, _)| self.take(text)) {
            return Ok(meant);
        }
        let furthest = texts.iter().map(|(text, _)| self.alike(text)).max();
        Err(self.fault(furthest.unwrap_or(0)))
    }

    /// A number must stand next, which ends after a leading 0: a digit there
    /// is not what may follow. Too large ones come back as u64::MAX, which is
    /// above every limit.
    fn number(&mut self) -> Result<u64, Refusal> {
        let count = match self.bytes {
            [b'0', ..] => 1,
            bytes => bytes
                .iter()
                .take_while(|byte| byte.is_ascii_digit())
                .count(),
        };
        let (digits, rest) = self.bytes.split_at(count);
        if digits.is_empty() {
            return Err(self.fault(0));
        }
        self.bytes = rest;
        Ok(digits.iter().fold(0u64, |value, &digit| {
            value
                .saturating_mul(10)
                .saturating_add((digit - b'0') as u64)
        }))
    }

    /// Numbers with one space between up to the closing bracket, which is
    /// taken too. A first number stands right away.
    fn numbers(&mut self) -> Result<Vec<u64>, Refusal> {
        let mut numbers = vec![self.number()?];
        self.more_numbers(&mut numbers)?;
        Ok(numbers)
    }

    /// Any count of space and number, then the closing bracket.
    fn more_numbers(&mut self, numbers: &mut Vec<u64>) -> Result<(), Refusal> {
        while self.take(" ") {
            numbers.push(self.number()?);
        }
        self.expect(")")
    }

    /// The line must be over.
    fn end(&self) -> Result<(), Refusal> {
        self.bytes.is_empty().then_some(()).ok_or(self.fault(0))
    }
}

/// A formula or Boolean of a line, by its place among the forms read.
type Form = usize;

/// A form spelled out: a node, whose operands are forms.
struct Spelled {
    kind: u16,
    signal: u64,
    operands: [Option<Form>; 2],
    /// How many nodes it has, or usize::MAX where that is too small.
    nodes: usize,
}

/// Forms made so far. One may be an operand more than once, as it is where a
/// short form says it twice.
struct Forms(RefCell<Vec<Spelled>>);

impl Forms {
    fn form(&self, kind: u16, signal: u64, operands: [Option<Form>; 2]) -> Form {
        let mut forms = self.0.borrow_mut();
        let counts = operands
            .iter()
            .flatten()
            .map(|&operand| forms[operand].nodes);
        let nodes = counts.fold(1, usize::saturating_add);
        forms.push(Spelled {
            kind,
            signal,
            operands,
            nodes,
        });
        forms.len() - 1
    }

    fn leaf(&self, kind: u16, signal: u64) -> Form {
        self.form(kind, signal, [None, None])
    }

    fn one(&self, kind: u16, f: Form) -> Form {
        self.form(kind, 0, [Some(f), None])
    }

    fn two(&self, kind: u16, f: Form, g: Form) -> Form {
        self.form(kind, 0, [Some(f), Some(g)])
    }

    fn not(&self, f: Form) -> Form {
        self.one(PSL_NOT, f)
    }

    fn and(&self, f: Form, g: Form) -> Form {
        self.two(PSL_AND, f, g)
    }

    fn next(&self, f: Form) -> Form {
        self.one(PSL_NEXT, f)
    }

    fn until(&self, f: Form, g: Form) -> Form {
        self.two(PSL_UNTIL, f, g)
    }
}

/// The short forms, sentence by sentence as document 02, N1, spells them out.
impl Forms {
    fn or(&self, f: Form, g: Form) -> Form {
        self.not(self.and(self.not(f), self.not(g)))
    }

    fn implies(&self, f: Form, g: Form) -> Form {
        self.or(self.not(f), g)
    }

    fn iff(&self, f: Form, g: Form) -> Form {
        self.and(self.implies(f, g), self.implies(g, f))
    }

    fn wnext(&self, f: Form) -> Form {
        self.not(self.next(self.not(f)))
    }

    fn eventually(&self, f: Form) -> Form {
        self.until(self.one(PSL_STRONG, self.leaf(PSL_TRUE, 0)), f)
    }

    fn always(&self, f: Form) -> Form {
        self.not(self.eventually(self.not(f)))
    }

    fn wuntil(&self, f: Form, g: Form) -> Form {
        self.or(self.until(f, g), self.always(f))
    }

    fn before(&self, f: Form, g: Form) -> Form {
        self.not(self.until(self.not(f), g))
    }
}

/// What follows a formula's word, and how the formula is made of it.
#[derive(Clone, Copy)]
enum Made {
    OfBoolean(u16),
    OfOne(fn(&Forms, Form) -> Form),
    OfTwo(fn(&Forms, Form, Form) -> Form),
    Abort,
}

const FORMULAS: [(&str, Made); 15] = [
    ("(weak ", Made::OfBoolean(PSL_WEAK)),
    ("(strong ", Made::OfBoolean(PSL_STRONG)),
    ("(not ", Made::OfOne(Forms::not)),
    ("(and ", Made::OfTwo(Forms::and)),
    ("(next ", Made::OfOne(Forms::next)),
    ("(until ", Made::OfTwo(Forms::until)),
    ("(abort ", Made::Abort),
    ("(or ", Made::OfTwo(Forms::or)),
    ("(implies ", Made::OfTwo(Forms::implies)),
    ("(iff ", Made::OfTwo(Forms::iff)),
    ("(wnext ", Made::OfOne(Forms::wnext)),
    ("(eventually ", Made::OfOne(Forms::eventually)),
    ("(always ", Made::OfOne(Forms::always)),
    ("(wuntil ", Made::OfTwo(Forms::wuntil)),
    ("(before ", Made::OfTwo(Forms::before)),
];

const BOOLEANS: [(&str, u16); 4] = [
    ("true", PSL_TRUE),
    ("(var ", PSL_VAR),
    ("(bnot ", PSL_BNOT),
    ("(band ", PSL_BAND),
];

/// A formula line being read, refusal 18 only. Its depth is that of the stack,
/// and bounded by its length.
struct FormulaReader<'a> {
    reader: Reader<'a>,
    forms: &'a Forms,
}

impl FormulaReader<'_> {
    fn boolean(&mut self) -> Result<Form, Refusal> {
        let forms = self.forms;
        let made = match self.reader.one_of(&BOOLEANS)? {
            PSL_TRUE => return Ok(forms.leaf(PSL_TRUE, 0)),
            PSL_VAR => forms.leaf(PSL_VAR, self.reader.number()?),
            PSL_BNOT => forms.one(PSL_BNOT, self.boolean()?),
            _ => forms.two(PSL_BAND, self.boolean()?, self.second(Self::boolean)?),
        };
        self.reader.expect(")")?;
        Ok(made)
    }

    fn formula(&mut self) -> Result<Form, Refusal> {
        let forms = self.forms;
        let made = match self.reader.one_of(&FORMULAS)? {
            Made::OfBoolean(kind) => forms.one(kind, self.boolean()?),
            Made::OfOne(make) => make(forms, self.formula()?),
            Made::OfTwo(make) => make(forms, self.formula()?, self.second(Self::formula)?),
            Made::Abort => forms.two(PSL_ABORT, self.formula()?, self.second(Self::boolean)?),
        };
        self.reader.expect(")")?;
        Ok(made)
    }

    /// A second operand, after a space.
    fn second(&mut self, form: fn(&mut Self) -> Result<Form, Refusal>) -> Result<Form, Refusal> {
        self.reader.expect(" ")?;
        form(self)
    }

    fn line(&mut self) -> Result<Form, Refusal> {
        self.reader.expect("(psl ")?;
        let formula = self.formula()?;
        self.reader.expect(")")?;
        self.reader.end()?;
        Ok(formula)
    }
}

/// Appends the nodes of a form as they close, its operands' each time anew,
/// and returns the number of its own.
fn close(forms: &[Spelled], form: Form, nodes: &mut Vec<[u64; 3]>) -> u64 {
    let form = &forms[form];
    let mut node = [form.kind as u64, form.signal, 0];
    for (place, &operand) in node[1..].iter_mut().zip(form.operands.iter().flatten()) {
        *place = close(forms, operand, nodes);
    }
    nodes.push(node);
    nodes.len() as u64 - 1
}

/// Formula line, refusals 17, 18, 19, 20, 23.
pub fn read_formula(line: &[u8], out: &mut [u16]) -> Result<usize, Refusal> {
    if line.len() > MAX_LINE {
        return Err(refused(17));
    }
    let forms = Forms(RefCell::new(Vec::new()));
    let mut reader = FormulaReader {
        reader: Reader::new(line),
        forms: &forms,
    };
    let formula = reader.line()?;
    let forms = forms.0.into_inner();
    if forms[formula].nodes > MAX_PSL_NODES {
        return Err(refused(19));
    }
    let mut nodes = Vec::with_capacity(forms[formula].nodes);
    close(&forms, formula, &mut nodes);
    if nodes
        .iter()
        .any(|node| node[0] == PSL_VAR as u64 && node[1] > MAX_SIGNAL as u64)
    {
        return Err(refused(20));
    }
    if out.len() < 3 * nodes.len() {
        return Err(refused(23));
    }
    for (place, &value) in out.iter_mut().zip(nodes.iter().flatten()) {
        *place = value as u16;
    }
    Ok(nodes.len())
}

/// Lead-in and cycle of a trace line, refusal 18 only. An empty cycle faults
/// at its closing bracket, where its first number is due.
fn trace_lists(line: &[u8]) -> Result<(Vec<u64>, Vec<u64>), Refusal> {
    let mut reader = Reader::new(line);
    let (mut lead, mut cycle) = (Vec::new(), Vec::new());
    if reader.one_of(&[("(finite", false), ("(lasso (", true)])? {
        if !reader.take(")") {
            lead = reader.numbers()?;
        }
        reader.expect(" (")?;
        cycle = reader.numbers()?;
        reader.expect(")")?;
    } else {
        reader.more_numbers(&mut lead)?;
    }
    reader.end()?;
    Ok((lead, cycle))
}

/// Trace line, refusals 17, 18, 21, 22, 23. Returns both lengths.
pub fn read_trace(
    line: &[u8],
    lead: &mut [Letter],
    cycle: &mut [Letter],
) -> Result<(usize, usize), Refusal> {
    if line.len() > MAX_LINE {
        return Err(refused(17));
    }
    let (lead_read, cycle_read) = trace_lists(line)?;
    if lead_read
        .iter()
        .chain(cycle_read.iter())
        .any(|&letter| letter > Letter::MAX as u64)
    {
        return Err(refused(21));
    }
    if lead_read.len() + cycle_read.len() > MAX_LETTERS {
        return Err(refused(22));
    }
    if lead.len() < lead_read.len() || cycle.len() < cycle_read.len() {
        return Err(refused(23));
    }
    for (place, &letter) in lead.iter_mut().zip(lead_read.iter()) {
        *place = letter as Letter;
    }
    for (place, &letter) in cycle.iter_mut().zip(cycle_read.iter()) {
        *place = letter as Letter;
    }
    Ok((lead_read.len(), cycle_read.len()))
}

/// The names of the LTL kinds.
const LTL_NAMES: [&str; 7] = ["true", "var", "not", "and", "or", "next", "until"];

/// Node line, refusals 11, 12 to 15, 24. The length counts the final byte 10.
pub fn write_node(
    own: u16,
    kind: u16,
    left: u16,
    right: u16,
    out: &mut [u8],
) -> Result<usize, Refusal> {
    if own as usize >= MAX_LTL_NODES {
        return Err(refused(11));
    }
    let places = ltl_places(kind).ok_or(refused_at(12, own as usize))?;
    check_places(places, [left, right], own as usize, [13, 14, 15])?;
    let mut line = format!("({} {}", own, LTL_NAMES[kind as usize]);
    if places[0] != Place::Unused {
        line.push_str(&format!(" {}", left));
    }
    if places[1] != Place::Unused {
        line.push_str(&format!(" {}", right));
    }
    line.push_str(")\n");
    if out.len() < line.len() {
        return Err(refused(24));
    }
    out[..line.len()].copy_from_slice(line.as_bytes());
    Ok(line.len())
}

// ------------------------------------------------------------- whole run

/// The lines of an input. A byte 10 ends a line; what follows the last one
/// is a line only if it is not empty.
fn lines_of(input: &[u8]) -> Vec<&[u8]> {
    let lines = input.split_inclusive(|&byte| byte == 10);
    lines
        .map(|line| line.strip_suffix(&[10]).unwrap_or(line))
        .collect()
}

/// What a trace line prints after its place among the trace lines.
fn verdicts_of(line: &[u8], psl: &[u16], ltl: &[u16]) -> Result<String, Refusal> {
    let yes_no = |verdict: bool| if verdict { "yes" } else { "no" };
    let (mut lead, mut cycle) = ([0; MAX_LETTERS], [0; MAX_LETTERS]);
    let (lead_count, cycle_count) = read_trace(line, &mut lead, &mut cycle)?;
    let (lead, cycle) = (&lead[..lead_count], &cycle[..cycle_count]);
    let by_psl = psl_verdict(psl, lead, cycle).expect("accepted table and trace");
    let by_ltl = match ltl_verdict(ltl, lead, cycle) {
        Ok(verdict) => yes_no(verdict),
        Err(refusal) if refusal == refused(16) => "none",
        Err(refusal) => unreachable!("refused by {}", refusal),
    };
    Ok(format!("psl {} ltl {}", yes_no(by_psl), by_ltl))
}

/// The whole program: standard input in, standard output out.
pub fn run(input: &[u8]) -> Vec<u8> {
    let lines = lines_of(input);
    // Empty input has no line, and is refused as an empty line 1 is.
    let first: &[u8] = lines.first().copied().unwrap_or(&[]);
    let mut psl = [0u16; 3 * MAX_PSL_NODES];
    let nodes = match read_formula(first, &mut psl) {
        Ok(nodes) => nodes,
        Err(refusal) => return format!("(refused 1 {})\n", refusal).into_bytes(),
    };
    let psl = &psl[..3 * nodes];
    let mut ltl = [0u16; 3 * MAX_LTL_NODES];
    let size = translate(psl, &mut ltl).expect("a line read is an accepted table");
    let ltl = &ltl[..3 * size];

    let mut output = format!("(ltl {})\n", size).into_bytes();
    for node in 0..size {
        let (kind, left, right) = node_of(ltl, node);
        let mut line = [0u8; 64];
        let length = write_node(node as u16, kind, left, right, &mut line)
            .expect("an emitted node is accepted");
        output.extend_from_slice(&line[..length]);
    }
    for (index, line) in lines.iter().enumerate().skip(1) {
        let answer = match verdicts_of(line, psl, ltl) {
            Ok(verdicts) => format!("(trace {} {})\n", index, verdicts),
            Err(refusal) => format!("(refused {} {})\n", index + 1, refusal),
        };
        output.extend_from_slice(answer.as_bytes());
    }
    output
}

// ------------------------------------------ plain evaluators for measuring

/// One byte a node and moment, 0 or 1, node by node: the truth of node `n` at
/// listed moment `i` stands at `n * moments + i`. Table and trace are
/// accepted ones.
fn plain_ltl_rows(table: &[u16], lead: &[Letter], cycle: &[Letter]) -> Vec<u8> {
    let moments = lead.len() + cycle.len();
    let mut rows = vec![0; table.len() / 3 * moments];
    for (node, triple) in table.chunks_exact(3).enumerate() {
        let (done, rest) = rows.split_at_mut(node * moments);
        let row = &mut rest[..moments];
        let of = |operand: u16| &done[operand as usize * moments..][..moments];
        match triple[0] {
            LTL_TRUE => row.fill(1),
            LTL_VAR => plain_var(triple[1], lead, cycle, row),
            LTL_NOT => plain_not(of(triple[1]), row),
            LTL_AND => plain_and(of(triple[1]), of(triple[2]), row),
            LTL_OR => plain_or(of(triple[1]), of(triple[2]), row),
            LTL_NEXT => plain_next(of(triple[1]), lead.len(), row),
            _ => plain_until(of(triple[1]), of(triple[2]), lead.len(), row),
        }
    }
    rows
}

/// LTL verdict by rows, where nothing is refused.
pub fn plain_ltl_verdict(table: &[u16], lead: &[Letter], cycle: &[Letter]) -> Option<bool> {
    check_ltl(table).ok()?;
    let moments = lead.len() + cycle.len();
    if moments == 0 || moments > MAX_LETTERS {
        return None;
    }
    let rows = plain_ltl_rows(table, lead, cycle);
    Some(rows[rows.len() - moments] == 1)
}

/// The rows of an accepted PSL table on a trace that is not empty: the truth
/// of node `n` on the suffix from listed moment `i`, under the aborts around
/// the node.
///
/// Each node has one user, so it has one surrounding: a row of moments at
/// which a formula is accepted and one at which it is rejected. `not`
/// exchanges the two; an abort accepts where its Boolean holds and nothing
/// rejects.
struct PlainRows {
    moments: usize,
    rows: Vec<u8>,
    /// The rows of all surroundings, row 0 being all no.
    surroundings: Vec<u8>,
    /// The accept row and the reject row of each node.
    around: Vec<(usize, usize)>,
}

impl PlainRows {
    /// Booleans, upwards.
    fn booleans(&mut self, table: &[u16], lead: &[Letter], cycle: &[Letter]) {
        let moments = self.moments;
        for (node, triple) in table.chunks_exact(3).enumerate() {
            let (done, rest) = self.rows.split_at_mut(node * moments);
            let row = &mut rest[..moments];
            let of = |operand: u16| &done[operand as usize * moments..][..moments];
            match triple[0] {
                PSL_TRUE => row.fill(1),
                PSL_VAR => plain_var(triple[1], lead, cycle, row),
                PSL_BNOT => plain_not(of(triple[1]), row),
                PSL_BAND => plain_and(of(triple[1]), of(triple[2]), row),
                _ => {}
            }
        }
    }

    /// Surroundings, downwards.
    fn surround(&mut self, table: &[u16]) {
        for (node, triple) in table.chunks_exact(3).enumerate().rev() {
            let (accept, reject) = self.around[node];
            let (left, right) = (triple[1] as usize, triple[2] as usize);
            match triple[0] {
                PSL_NOT => self.around[left] = (reject, accept),
                PSL_NEXT => self.around[left] = (accept, reject),
                PSL_AND | PSL_UNTIL => {
                    self.around[left] = (accept, reject);
                    self.around[right] = (accept, reject);
                }
                PSL_ABORT => {
                    let start = self.surroundings.len();
                    self.around[left] = (start / self.moments, reject);
                    self.surroundings.resize(start + self.moments, 0);
                    let (old, new) = self.surroundings.split_at_mut(start);
                    let row = |at: usize| at * self.moments..(at + 1) * self.moments;
                    let holds = &self.rows[row(right)];
                    plain_accept(holds, &old[row(accept)], &old[row(reject)], new);
                }
                _ => {}
            }
        }
    }

    /// Formulas, upwards.
    fn formulas(&mut self, table: &[u16], lead: usize) {
        let moments = self.moments;
        let mut shifted = [0u8; MAX_LETTERS];
        for (node, triple) in table.chunks_exact(3).enumerate() {
            let (done, rest) = self.rows.split_at_mut(node * moments);
            let row = &mut rest[..moments];
            let of = |operand: u16| &done[operand as usize * moments..][..moments];
            let accept = &self.surroundings[self.around[node].0 * moments..][..moments];
            let reject = &self.surroundings[self.around[node].1 * moments..][..moments];
            match triple[0] {
                PSL_WEAK | PSL_STRONG => plain_accept(of(triple[1]), accept, reject, row),
                PSL_NOT => plain_not(of(triple[1]), row),
                PSL_AND => plain_and(of(triple[1]), of(triple[2]), row),
                PSL_NEXT => {
                    let shifted = &mut shifted[..moments];
                    plain_next(of(triple[1]), lead, shifted);
                    plain_accept(shifted, accept, reject, row);
                }
                PSL_UNTIL => plain_until(of(triple[1]), of(triple[2]), lead, row),
                PSL_ABORT => row.copy_from_slice(of(triple[1])),
                _ => {}
            }
        }
    }
}

/// PSL verdict by rows, where nothing is refused and the trace is not empty.
pub fn plain_psl_verdict(table: &[u16], lead: &[Letter], cycle: &[Letter]) -> Option<bool> {
    check_psl(table).ok()?;
    let moments = lead.len() + cycle.len();
    if moments == 0 || moments > MAX_LETTERS {
        return None;
    }
    let nodes = table.len() / 3;
    let mut plain = PlainRows {
        moments,
        rows: vec![0; nodes * moments],
        surroundings: vec![0; moments],
        around: vec![(0, 0); nodes],
    };
    plain.booleans(table, lead, cycle);
    plain.surround(table);
    plain.formulas(table, lead.len());
    Some(plain.rows[(nodes - 1) * moments] == 1)
}

fn plain_var(signal: u16, lead: &[Letter], cycle: &[Letter], row: &mut [u8]) {
    let (first, second) = row.split_at_mut(lead.len());
    for (place, letter) in first.iter_mut().zip(lead) {
        *place = (letter >> signal & 1) as u8;
    }
    for (place, letter) in second.iter_mut().zip(cycle) {
        *place = (letter >> signal & 1) as u8;
    }
}

fn plain_not(f: &[u8], row: &mut [u8]) {
    for (place, a) in row.iter_mut().zip(f) {
        *place = 1 - a;
    }
}

fn plain_and(f: &[u8], g: &[u8], row: &mut [u8]) {
    for (place, (a, b)) in row.iter_mut().zip(f.iter().zip(g)) {
        *place = a & b;
    }
}

fn plain_or(f: &[u8], g: &[u8], row: &mut [u8]) {
    for (place, (a, b)) in row.iter_mut().zip(f.iter().zip(g)) {
        *place = a | b;
    }
}

/// Accepted, or holding and not rejected.
fn plain_accept(f: &[u8], accept: &[u8], reject: &[u8], row: &mut [u8]) {
    let around = accept.iter().zip(reject);
    for (place, (holds, (a, r))) in row.iter_mut().zip(f.iter().zip(around)) {
        *place = a | (holds & (1 - r));
    }
}

/// The row has at least one moment.
fn plain_next(f: &[u8], lead: usize, row: &mut [u8]) {
    let last = row.len() - 1;
    row[..last].copy_from_slice(&f[1..]);
    row[last] = if lead <= last { f[lead] } else { 0 };
}

/// Backwards from no, twice round the cycle.
fn plain_until(f: &[u8], g: &[u8], lead: usize, row: &mut [u8]) {
    let mut later = 0;
    for (a, b) in f[lead..].iter().zip(&g[lead..]).rev() {
        later = b | (a & later);
    }
    for (place, (a, b)) in row.iter_mut().zip(f.iter().zip(g)).rev() {
        later = b | (a & later);
        *place = later;
    }
}
