//! Tests of the evaluator that the library is compared with, by what the
//! papers give: the sentences with known verdicts, the worked run and the
//! short forms; of its words; and of the places of its refusals by their
//! definition. `./build oracle_test` builds it.

mod generate;
mod oracle;
mod types;

use generate::Rng;
use oracle::{Word, WordLetter};
use types::{refused, refused_at, Letter, Refusal};

/// Name, formula, trace and verdict of each sentence; p is var 0, q is var 1.
/// After c12: words by hand, TOP and BOTTOM under not and under nested aborts.
const SENTENCES: &str = "c1: (weak p): (finite): yes
c2: (strong p): (finite): no
c3: (not (weak p)): (finite): no
c4: (weak (bnot p)): (finite): yes
c5: (next (weak true)): (finite 0): no
c6: (not (next (not (weak p)))): (finite 0): yes
c7: (until (strong true) (strong p)): (lasso (0) (1)): yes
c8: (until (strong true) (strong p)): (lasso () (0)): no
c9: (abort (strong (bnot true)) true): (finite 0): yes
c10: (not (abort (next (strong q)) p)): (finite 1): no
c11: (abort (not (abort (strong true) p)) p): (finite 1): yes
c12: (next (until (strong p) (strong q))): (lasso () (2 1)): yes
until that is never fulfilled: (until (strong p) (strong q)): (lasso () (1)): no
not under abort: (abort (not (strong true)) p): (finite 0 1): no
abort at the second moment: (abort (next (next (strong (bnot true)))) p): (finite 0 1): yes
rejected by the outer not: (not (abort (not (next (next (weak true)))) p)): (finite 0 1 0): no
abort in the second round: (abort (next (next (next (strong q)))) p): (lasso () (0 1)): yes
or, the second: (or (strong p) (strong q)): (finite 2): yes
or, neither: (or (strong p) (strong q)): (finite 4): no
implies, nothing asked: (implies (strong p) (strong q)): (finite 4): yes
implies, broken: (implies (strong p) (strong q)): (finite 1): no
iff, neither: (iff (strong p) (strong q)): (finite 4): yes
iff, the second only: (iff (strong p) (strong q)): (finite 2): no
wnext at the last moment: (wnext (strong p)): (finite 0): yes
wnext on nothing: (wnext (strong p)): (finite): yes
wnext, broken: (wnext (strong p)): (finite 1 0): no
eventually in the end: (eventually (strong p)): (finite 0 0 1): yes
eventually on nothing: (eventually (weak p)): (finite): no
eventually, looping: (eventually (strong p)): (lasso (0) (2 1)): yes
always, finite: (always (strong p)): (finite 1 1): yes
always, broken in the end: (always (strong p)): (finite 1 0): no
always on nothing: (always (strong p)): (finite): yes
always, looping: (always (strong p)): (lasso (3) (1 3)): yes
always, broken in the loop: (always (strong p)): (lasso (3) (1 2)): no
wuntil for ever: (wuntil (strong p) (strong q)): (lasso () (1)): yes
wuntil to the end: (wuntil (strong p) (strong q)): (finite 1 1): yes
wuntil, broken: (wuntil (strong p) (strong q)): (finite 1 0 2): no
before: (before (strong p) (strong q)): (finite 0 1 2): yes
before, both never: (before (strong p) (strong q)): (finite 0 0): yes
before, at once: (before (strong p) (strong q)): (finite 0 3): no
before, too late: (before (strong p) (strong q)): (lasso (0) (2 1)): no";

/// Every evaluator, and the run, gives the verdict.
fn sentence(sentence: &str) {
    let parts: Vec<&str> = sentence.split(": ").collect();
    let [name, formula, trace, verdict] = parts[..] else {
        panic!("not a sentence: {sentence}");
    };
    let formula = formula.replace(" p", " (var 0)").replace(" q", " (var 1)");
    let line = format!("(psl {})", formula);
    let mut table = [0; 3 * oracle::MAX_PSL_NODES];
    let nodes = oracle::read_formula(line.as_bytes(), &mut table).expect(name);
    let table = &table[..3 * nodes];
    let mut ltl = [0; 3 * oracle::MAX_LTL_NODES];
    let size = oracle::translate(table, &mut ltl).expect(name);
    let ltl = &ltl[..3 * size];
    let (mut lead, mut cycle) = ([0; 64], [0; 64]);
    let lengths = oracle::read_trace(trace.as_bytes(), &mut lead, &mut cycle).expect(name);
    let (lead, cycle) = (&lead[..lengths.0], &cycle[..lengths.1]);

    let yes = verdict == "yes";
    let empty = trace == "(finite)";
    let (by_ltl, plain) = if empty {
        (Err(refused(16)), None)
    } else {
        (Ok(yes), Some(yes))
    };
    assert_eq!(oracle::psl_verdict(table, lead, cycle), Ok(yes), "{name}");
    assert_eq!(oracle::ltl_verdict(ltl, lead, cycle), by_ltl, "{name}");
    assert_eq!(
        oracle::plain_psl_verdict(table, lead, cycle),
        plain,
        "{name}"
    );
    assert_eq!(oracle::plain_ltl_verdict(ltl, lead, cycle), plain, "{name}");
    let output = oracle::run(format!("{line}\n{trace}").as_bytes());
    let word = if empty { "none" } else { verdict };
    let last = format!("(trace 1 psl {verdict} ltl {word})\n");
    assert!(output.ends_with(last.as_bytes()), "{name}");
}

const WORKED_INPUT: &str = "(psl (abort (next (strong (var 1))) (var 0)))
(finite 1)
(finite 0 0)
(lasso () (2))
(finite)
";

const WORKED_OUTPUT: &str = "(ltl 14)
(0 true)
(1 not 0)
(2 var 0)
(3 not 1)
(4 and 2 3)
(5 or 1 4)
(6 var 1)
(7 not 1)
(8 and 6 7)
(9 or 5 8)
(10 next 9)
(11 not 1)
(12 and 10 11)
(13 or 5 12)
(trace 1 psl yes ltl yes)
(trace 2 psl no ltl no)
(trace 3 psl yes ltl yes)
(trace 4 psl no ltl none)
";

/// The letters of words agree with those of the trace they come from.
fn words() {
    let mut rng = Rng::new(11);
    for _ in 0..2000 {
        let count = rng.between(1, 9);
        let (lead, cycle) = generate::trace_of(&mut rng, count);
        let word = Word::of_trace(&lead, &cycle);
        let from = rng.below(if cycle.is_empty() { count } else { 3 * count });
        let (suffix, cut) = (word.suffix(from), word.cut(from));
        let plain = |moment| {
            oracle::letter_at(&lead, &cycle, moment)
                .ok()
                .map(WordLetter::Plain)
        };
        for moment in 0..4 * count {
            assert_eq!(word.letter(moment), plain(moment));
            assert_eq!(suffix.letter(moment), plain(from + moment));
            let after = Some(WordLetter::Top);
            assert_eq!(
                cut.letter(moment),
                if moment < from { plain(moment) } else { after }
            );
        }
        assert!(cut.dual().dual() == cut && cut.dual() != cut);
        assert!(cut.cut(from + 3) == cut);
    }
}

/// Each short form of p and q, strong var 0 and weak var 1, and its table.
const SHORT_FORMS: [(&str, &str); 8] = [
    (
        "(or P Q)",
        "1 0 0 5 0 0 6 1 0 1 1 0 4 3 0 6 4 0 7 2 5 6 6 0",
    ),
    (
        "(implies P Q)",
        "1 0 0 5 0 0 6 1 0 6 2 0 1 1 0 4 4 0 6 5 0 7 3 6 6 7 0",
    ),
    (
        "(iff P Q)",
        "1 0 0 5 0 0 6 1 0 6 2 0 1 1 0 4 4 0 6 5 0 7 3 6 6 7 0 \
         1 1 0 4 9 0 6 10 0 6 11 0 1 0 0 5 13 0 6 14 0 7 12 15 6 16 0 7 8 17",
    ),
    ("(wnext P)", "1 0 0 5 0 0 6 1 0 8 2 0 6 3 0"),
    ("(eventually P)", "0 0 0 5 0 0 1 0 0 5 2 0 9 1 3"),
    ("(always P)", "0 0 0 5 0 0 1 0 0 5 2 0 6 3 0 9 1 4 6 5 0"),
    (
        "(wuntil P Q)",
        "1 0 0 5 0 0 1 1 0 4 2 0 9 1 3 6 4 0 \
         0 0 0 5 6 0 1 0 0 5 8 0 6 9 0 9 7 10 6 11 0 6 12 0 7 5 13 6 14 0",
    ),
    ("(before P Q)", "1 0 0 5 0 0 6 1 0 1 1 0 4 3 0 9 2 4 6 5 0"),
];

fn short_forms() {
    let mut table = [0; 3 * oracle::MAX_PSL_NODES];
    let mut read = |line: &[u8]| {
        let nodes = oracle::read_formula(line, &mut table)?;
        Ok(table[..3 * nodes].to_vec())
    };
    for (form, due) in SHORT_FORMS {
        let formula = form.replace('P', "(strong (var 0))");
        let line = format!("(psl {})", formula.replace('Q', "(weak (var 1))"));
        let due: Vec<u16> = due.split(' ').map(|part| part.parse().unwrap()).collect();
        assert_eq!(read(line.as_bytes()), Ok(due), "{form}");
    }
    // The generator counts nodes by the sizes of the forms.
    let mut rng = Rng::new(12);
    for nodes in (2..1100).chain(2..1100) {
        let due = if nodes > 1024 {
            Err(refused(19))
        } else {
            Ok(nodes)
        };
        let line = generate::short_line(&mut rng, nodes);
        let got = read(&line).map(|table| table.len() / 3);
        assert_eq!(got, due, "{}", line.escape_ascii());
    }
    // A count beyond every number, which would be small again if it wrapped.
    let before = "(not ".repeat(30) + &"(iff (weak true) ".repeat(870);
    let line = format!("(psl {before}(weak true){})", ")".repeat(900));
    assert_eq!(read(line.as_bytes()), Err(refused(19)));
    let cut = line.len() - 1;
    assert_eq!(read(&line.as_bytes()[..cut]), Err(refused_at(18, cut)));
}

// ---------------------------------------------------------------- places

/// Runs, and what each prints last: the places that the papers name.
const REFUSED: [(&str, &str); 9] = [
    ("", "(refused 1 18 0)"),
    ("(psl (b", "(refused 1 18 7)"),
    ("(psl (bn", "(refused 1 18 7)"),
    ("(psl (weak (var 00", "(refused 1 18 17)"),
    ("(psl (weak (var 32)))", "(refused 1 20)"),
    ("(psl (weak true)) (finite)", "(refused 1 18 17)"),
    ("(psl (weak true))\n\n", "(refused 2 18 0)"),
    ("(psl (weak true))\n(finite 0) ", "(refused 2 18 10)"),
    ("(psl (weak true))\n(lasso () (00))", "(refused 2 18 12)"),
];

/// The shape of lines by rules, without a reader: a capital may be replaced by
/// each of its texts, and what L (formula lines) or T (trace lines) becomes
/// until no capital is left are the lines of the shape. Whatever was begun so
/// can be completed: by first texts, a capital comes to an end.
const RULES: [&str; 8] = [
    "L:(psl F)",
    "T:(finiteM)|(lasso (O) (NM))",
    "F:(weak B)|(strong B)|(not F)|(and F F)|(next F)|(until F F)|(abort F B)|(or F F)|\
     (implies F F)|(iff F F)|(wnext F)|(eventually F)|(always F)|(wuntil F F)|(before F F)",
    "B:true|(var N)|(bnot B)|(band B B)",
    // A number; more digits; numbers or none; more numbers.
    "N:0|1D|2D|3D|4D|5D|6D|7D|8D|9D",
    "D:|0D|1D|2D|3D|4D|5D|6D|7D|8D|9D",
    "O:|NM",
    "M:| NM",
];

fn texts(capital: u8) -> std::str::Split<'static, char> {
    let rule = RULES.iter().find(|rule| rule.as_bytes()[0] == capital);
    rule.expect("a capital with a rule")[2..].split('|')
}

/// What may follow some bytes, last byte first: bytes and capitals.
type Following = Vec<u8>;

/// Replaces a capital that comes next, in every way, until a byte or nothing
/// comes next.
fn replaced(following: Following, all: &mut Vec<Following>) {
    match following.last() {
        Some(&capital) if capital.is_ascii_uppercase() => {
            for text in texts(capital) {
                let mut one = following.clone();
                one.pop();
                one.extend(text.bytes().rev());
                replaced(one, all);
            }
        }
        _ => all.push(following),
    }
}

/// The place of refusal 18 by its definition, or none where the line is of the
/// shape: the first byte such that nothing may follow the bytes up to it. And
/// a line of the shape that begins with the bytes before that place.
fn place_of(shape: u8, line: &[u8]) -> (Option<usize>, Vec<u8>) {
    let mut all = Vec::new();
    replaced(vec![shape], &mut all);
    for (at, byte) in line.iter().enumerate() {
        let mut after = Vec::new();
        for following in &all {
            if let Some((next, rest)) = following.split_last() {
                if next == byte {
                    replaced(rest.to_vec(), &mut after);
                }
            }
        }
        if after.is_empty() {
            return (Some(at), completed(&line[..at], &all[0]));
        }
        all = after;
    }
    let is_line = all.iter().any(|following| following.is_empty());
    let place = (!is_line).then_some(line.len());
    (place, completed(line, &all[0]))
}

/// Some bytes and what may follow, each capital replaced by its first text.
fn completed(line: &[u8], following: &[u8]) -> Vec<u8> {
    let mut line = line.to_vec();
    for &next in following.iter().rev() {
        if next.is_ascii_uppercase() {
            let text = texts(next).next().unwrap_or_default();
            line = completed(&line, &text.bytes().rev().collect::<Vec<u8>>());
        } else {
            line.push(next);
        }
    }
    line
}

/// Has a line read, for what it is refused by.
fn refusal_of(shape: u8, line: &[u8]) -> Option<Refusal> {
    if shape == b'L' {
        let mut table = [0; 3 * oracle::MAX_PSL_NODES];
        oracle::read_formula(line, &mut table).err()
    } else {
        let (mut lead, mut cycle) = ([0 as Letter; 64], [0 as Letter; 64]);
        oracle::read_trace(line, &mut lead, &mut cycle).err()
    }
}

/// The evaluator's place is that of the definition.
fn check_place(shape: u8, line: &[u8]) {
    let shown = || line.escape_ascii().to_string();
    let (place, completed) = place_of(shape, line);
    let refusal = refusal_of(shape, line);
    match place {
        Some(place) => assert_eq!(refusal, Some(refused_at(18, place)), "{}", shown()),
        None => assert!(
            refusal.is_none_or(|it| it.number != 18 && it.place.is_none()),
            "{}",
            shown()
        ),
    }
    let refusal = refusal_of(shape, &completed);
    assert!(refusal.is_none_or(|it| it.number != 18), "{}", shown());
}

/// Lines with every keyword, of which each damage of one byte is tried.
const DAMAGED: [(u8, &str); 6] = [
    (
        b'L',
        "(psl (or (implies (before (wnext (weak true)) (strong (var 10))) (not (weak true))) \
         (iff (eventually (weak true)) (wuntil (always (weak true)) (abort (weak true) true)))))",
    ),
    (
        b'L',
        "(psl (and (next (weak (bnot true))) (until (strong (band (var 0) true)) (weak true))))",
    ),
    (b'L', "(psl (weak (var 4294967296)))"),
    (b'T', "(finite)"),
    (b'T', "(finite 0 10 4294967296)"),
    (b'T', "(lasso (1 20) (0 305))"),
];

/// Every byte replaced, inserted, left out, and the line cut before it.
fn check_damages(shape: u8, line: &[u8]) {
    for at in 0..=line.len() {
        let (before, after) = line.split_at(at);
        let after_it = after.get(1..).unwrap_or_default();
        check_place(shape, before);
        check_place(shape, &[before, after_it].concat());
        for byte in 0..=255 {
            check_place(shape, &[before, &[byte], after].concat());
            check_place(shape, &[before, &[byte], after_it].concat());
        }
    }
}

/// Beginnings, after each of which every text of at most so many of some bytes
/// is tried.
const BEGUN: [(u8, &str, usize, &str); 7] = [
    (b'T', "", 5, "(finlaso"),
    (b'T', "(finite", 6, "( 01)"),
    (b'T', "(lasso (", 6, "( 01)"),
    (b'T', "(lasso () (", 6, "( 09)"),
    (b'L', "", 5, "(psl wea"),
    (b'L', "(psl ", 4, "( weakntilfborv"),
    (b'L', "(psl (weak ", 4, "( truevabndo0)"),
];

fn check_texts(shape: u8, begun: Vec<u8>, most: usize, bytes: &[u8]) {
    check_place(shape, &begun);
    for byte in bytes {
        if most > 0 {
            check_texts(shape, [&begun, &[*byte][..]].concat(), most - 1, bytes);
        }
    }
}

fn line_places() {
    for (input, last) in REFUSED {
        let output = oracle::run(input.as_bytes());
        assert!(output.ends_with(format!("{last}\n").as_bytes()), "{input}");
    }
    for (shape, line) in DAMAGED {
        check_damages(shape, line.as_bytes());
    }
    for (shape, begun, most, bytes) in BEGUN {
        check_texts(shape, begun.into(), most, bytes.as_bytes());
    }
    let mut rng = Rng::new(13);
    for _ in 0..20_000 {
        for (shape, line) in [
            (b'L', generate::any_formula_line(&mut rng)),
            (b'T', generate::any_trace_line(&mut rng)),
        ] {
            if line.len() <= oracle::MAX_LINE {
                check_place(shape, &line);
            }
        }
    }
}

/// How often a node of a PSL table is an operand.
fn uses(table: &[u16], node: usize) -> usize {
    let users = (0..table.len() / 3).flat_map(|user| generate::operands(table, user));
    users.filter(|&(_, operand)| operand == node).count()
}

type Check = fn(&[u16]) -> Result<(), Refusal>;

/// The place of a check's refusal. That of a node's own test is the last node
/// of the shortest list that is refused by such a test, whose number decides.
fn check_table(check: Check, tests: &[u8], table: &[u16]) {
    let Err(refusal) = check(table) else {
        return;
    };
    let nodes = table.len() / 3;
    let by_test = |nodes: usize| {
        let refusal = check(&table[..3 * nodes]).err();
        refusal.filter(|refusal| tests.contains(&refusal.number))
    };
    let place = match refusal.number {
        1 | 11 => None,
        7 => (0..nodes - 1).find(|&node| uses(table, node) != 1),
        8 => Some(nodes - 1),
        _ => {
            let least = (1..=nodes).find(|&nodes| by_test(nodes).is_some());
            assert_eq!(least.and_then(by_test), Some(refusal), "{table:?}");
            least.map(|nodes| nodes - 1)
        }
    };
    assert_eq!(refusal.place, place, "{table:?}");
}

fn node_places() {
    let mut rng = Rng::new(14);
    for _ in 0..40_000 {
        let psl = generate::any_psl_table(&mut rng);
        let ltl = generate::any_ltl_table(&mut rng);
        if psl.len().max(ltl.len()) < 300 {
            check_table(oracle::check_psl, &[2, 3, 4, 5, 6], &psl);
            check_table(oracle::check_ltl, &[12, 13, 14, 15], &ltl);
        }
    }
}

fn main() {
    SENTENCES.lines().for_each(sentence);
    let output = oracle::run(WORKED_INPUT.as_bytes());
    assert_eq!(String::from_utf8(output).unwrap(), WORKED_OUTPUT);
    words();
    short_forms();
    line_places();
    node_places();
    println!(
        "oracle_test: {} sentences, the worked run, words, short forms and places passed",
        SENTENCES.lines().count()
    );
}
