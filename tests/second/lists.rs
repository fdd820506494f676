//! The lists of store calls that are written as vectors: each refusal at its edge, stores that are
//! filled to the last record, all rows of rules under pass rules, rows provoked with flags fixed in
//! all ways, logs replayed, and random lists.

use crate::play::play;
use crate::scribe::{kinds, Kind, Scribe};
use crate::{replays, Dice, CELLS, WIDTH};
use std::collections::{BTreeMap, BTreeSet};

/// The test programs read by way of a buffer of so many bytes: with more input it is filled again.
const BUFFER: usize = 65_536;

/// The rows of the refusal table that each call tests.
const TESTED: &[(char, &[usize])] = &[
    ('o', &[1, 4, 5]),
    ('k', &[1, 4, 5, 6, 9]),
    ('f', &[1, 4, 5, 6, 9, 10]),
    ('j', &[1, 4, 5, 6, 7, 9, 10]),
    ('c', &[1, 4, 5, 6, 7, 10]),
    ('x', &[1, 4, 5, 6, 7, 9, 10]),
    ('t', &[1, 2, 4, 5, 6, 7]),
    ('w', &[1, 4, 5, 6, 7, 9]),
    ('g', &[1, 4, 5, 6, 7, 9, 14]),
    ('p', &[1, 4, 5, 6, 7, 9, 15]),
    ('r', &[1, 4, 5, 6, 7, 9, 16]),
    ('q', &[1, 4, 5, 6, 7, 9, 14, 16]),
];

/// States given to open: n, the order and the used number, at the edges of what is fit.
const STATES: &[&str] = &[
    "0 - 0",
    "0 0000000000 65535",
    "0 1 0",
    "0 0000000001 1",
    "1 - 1",
    "1 0 2",
    "1 1 0",
    "1 01 0",
    "2 01 1024",
    "2 1 1025",
    "2 0 0",
    "2 11 3",
    "2 02 0",
    "2 20 0",
    "2 010 0",
    "2 011 0",
    "3 210 0",
    "3 01 0",
    "3 12 65535",
    "3 021 65534",
    "3 0210000009 0",
    "9 012345678 1",
    "9 0123456789 1",
    "9 876543219 0",
    "10 9876543210 1024",
    "10 123456789 0",
    "10 012345678 1",
    "10 0123456788 2",
    "10 0123456789 0",
    "11 0123456789 0",
    "11 - 65535",
    "12 01 5",
    "128 0123456789 1",
    "255 9999999999 65535",
];

/// Cells and states given to open, the last of which is refused, if there is any. What applies to
/// a call then stands high in the table, and often two rows do at once.
const UNFIT: &[(usize, &[&str])] = &[
    (0, &[]),
    (WIDTH, &[]),
    (5 * WIDTH, &[]),
    (CELLS, &[]),
    (1, &[]),
    (CELLS + 1, &[]),
    (CELLS + WIDTH, &[]),
    (WIDTH + 1, &["3 012 0"]),
    (CELLS + WIDTH, &["2 10 7"]),
    (2, &["3 011 0"]),
    (CELLS + 2, &["2 012 65535"]),
    (WIDTH + 1, &["11 01 3"]),
    (5 * WIDTH, &["3 011 2"]),
    (CELLS, &["0 1 0"]),
    (WIDTH, &["12 - 0"]),
    (5 * WIDTH, &["2 01 9", "3 011 4"]),
    (10 * WIDTH, &["3 210 0", "2 012 0"]),
    (4 * WIDTH, &["2 10 1", "11 10 2"]),
    (CELLS, &["2 10 1", "255 10 65535"]),
    (0, &["0 - 5", "0 1 5"]),
];

/// The state given to open, call 0, and calls that make the paper's rules with several nodes and
/// some others. In the last two the opposite of a rule would take a record that the result does not
/// need: "its extra records bring a false 10".
const MADE: &[(&str, &str)] = &[
    ("3 012 0", "f 0;f 1;f 2;j 7 @2 @3;j 1 @2 @3;c @1 @4 @5"), // 00010111
    ("3 201 0", "f 0;f 1;f 2;j 7 @2 @3;j 1 @2 @3;c @1 @4 @5"),
    ("3 012 0", "f 0;f 1;j 6 @1 @2;f 2;j 6 @3 @4"), // 01101001
    ("4 0123 0", "f 0;f 1;j 1 @1 @2;f 2;f 3;j 1 @4 @5;j 7 @3 @6"), // 0001000100011111
    ("4 0213 0", "f 0;f 1;j 1 @1 @2;f 2;f 3;j 1 @4 @5;j 7 @3 @6"),
    ("3 012 0", "f 0;f 2;f 1;j 4 @2 @3;c @1 @2 @4"), // 00100101
    ("3 102 0", "f 0;f 2;f 1;j 4 @2 @3;c @1 @2 @4"),
    ("1 0 0", "f 0"),
    ("1 0 0", "f 0;j 12 @1 0"),
    ("2 10 0", "f 0;f 1;j 2 @1 @2"),
    ("3 201 0", "f 2;f 0;f 1;j 6 @2 @3;j 4 @1 @4"),
];

/// Stores of several numbers of flags in one list, and tabulates into as many bytes as their tables
/// have rows, or as those of the store before.
const LENGTHS: &str =
    "o 2 10 0;f 0;t @1 4;o 3 012 7;f 2;t @4 8;t @4 4;o 1 0 0;t 1 2;t 0 8;o 0 - 1;t 1 1;o 4 3210 0;f 3;t @13 16";

/// Ten flags, joined from the one asked last upwards by AND and OR in turn: for row 316 a walk asks
/// all of them, for a row that differs from it in one flag those up to that flag.
pub const JOINED: &str = "o 10 3140592687 0;f 7;f 8;j 1 @2 @1;f 6;j 7 @4 @3;f 2;j 1 @6 @5;f 9;\
    j 7 @8 @7;f 5;j 1 @10 @9;f 0;j 7 @12 @11;f 4;j 1 @14 @13;f 1;j 7 @16 @15;f 3;j 1 @18 @17";

/// Walks of these rules; then a rule that asks one flag has a pass rule that asks many, and the
/// other way round. The last open leaves no tables to be told.
const WALKED: &str = "w @19 308;w @19 318;w @19 300;w @19 317;w @19 284;w @19 828;w @19 312;\
    w @19 380;w @19 60;w @19 444;w @19 316;g @19 @17 308;g @19 @17 436;g @17 @19 444;\
    g @1 @19 444;g @19 @18 316;g @19 @1 316;g @19 @19 444;g @19 @19 316;o 0 - 0";

/// Stores by n and their order, calls that make rules in them, open being call 0, and pairs of a
/// rule and its pass rule. The first pass rule says that flags 0 and 1 are never both set; `@6` in
/// the second store is a node within other rules.
pub const PASSED: &[(usize, &str, &str, &str)] = &[
    (
        4,
        "2013",
        "f 0;f 1;j 14 @1 @2;f 2;f 3;j 1 @1 @4;c @5 @6 @2",
        "@7 @3;@7 @7;@3 @7;@7 @6;@7 0;@7 1",
    ),
    (3, "012", "f 0;f 1;j 6 @1 @2;f 2;j 6 @3 @4;x @3 0 1", "@5 @6;@6 @5;@3 @6;@6 @6"),
    (3, "201", "f 0;f 1;f 2;j 7 @2 @3;j 1 @2 @3;c @1 @4 @5", "@6 @4;@4 @6;@6 @5;@5 @3"),
    (1, "0", "f 0;j 12 @1 0", "@1 @1;@1 @2;@2 @1;@2 0;0 @2;1 @1"),
];

/// The same, for rows that are provoked with flags fixed in all ways; of four flags, the settled
/// 0001000100011111 in two orders, at most one is fixed.
pub const PROVOKED: &[(usize, &str, &str, &str)] = &[
    (2, "01", "f 0;f 1;j 6 @1 @2;j 7 @1 @2", "@3 @4;@4 @3"),
    (2, "10", "f 0;f 1;j 2 @1 @2;j 14 @1 @2", "@3 1;@4 @4"),
    (3, "120", "f 0;f 1;f 2;c @1 @2 @3;j 11 @3 @1", "@4 @5;@5 @4"),
    (3, "210", "f 0;f 1;f 2;j 6 @1 @3;j 1 @2 @4", "@5 1"),
    (4, "0123", "f 0;f 1;j 1 @1 @2;f 2;f 3;j 1 @4 @5;j 7 @3 @6", "@7 1"),
    (4, "0213", "f 0;f 1;j 1 @1 @2;f 2;f 3;j 1 @4 @5;j 7 @3 @6", "@7 1"),
];

/// Orders of ten flags, an operator by which all of them are joined as `@19`, `@20` being its
/// opposite, and what is provoked. By AND row 1023 alone says yes, by OR row 0 alone says no. Two
/// opposites leave no row, though all flags are free. The last open leaves no tables to be told.
const TEN: &[(&str, usize, &str)] = &[
    (
        "0123456789",
        1,
        "p @19 1 1 0 0;p @20 0 1 0 0;p 1 1 @19 0 0;p 0 0 @19 1023 1023;p @19 1 1 256 256;\
         p @19 1 @20 0 0;p @20 1 @19 0 0;p @20 0 @20 0 0;p @19 0 1 1023 1023;p @19 1 1 512 0;\
         p @19 1 1 1 0;p @19 0 1 1022 1022;p @19 0 @20 511 511;p @18 1 1 0 0;p @18 1 @20 512 512;\
         p @18 1 @19 0 0;p @20 1 @17 768 512;o 0 - 0",
    ),
    (
        "3140592687",
        1,
        "p @19 1 1 0 0;p @20 0 @19 0 0;p @18 0 1 0 0;p @18 1 @19 0 0;p @19 1 @20 0 0;\
         p @19 0 @18 0 0;p @20 1 @18 512 512;p @17 1 @20 256 256;p @17 1 @20 768 768;\
         p @17 0 1 1021 1021;p @10 1 @19 0 0;p @10 1 @20 511 511;o 0 - 0",
    ),
    (
        "9876543210",
        7,
        "p @20 1 1 0 0;p @19 0 1 0 0;p 1 1 @20 0 0;p @19 0 1 1023 0;p 0 0 @20 1 0;p @19 1 1 0 0;\
         p @19 1 1 1 0;p @19 1 1 511 0;p @19 1 1 1023 0;p @19 1 @20 0 0;p @19 0 @19 0 0;\
         p @20 1 1 512 512;p @20 0 1 1023 512;p @20 0 1 1023 1023;p @18 0 @19 0 0;\
         p @18 0 @19 512 0;p @18 1 @19 512 512;o 0 - 0",
    ),
];

/// Open at its edges, with a call behind each that tells whether the state is fit.
fn opens(dice: &mut Dice, cells: usize, states: &[&str]) -> Vec<String> {
    let mut list = Scribe::new(dice, cells);
    for state in states {
        list.say_open(state);
        list.say_fit("k");
    }
    list.end()
}

/// The calls but replay (those are in replays.rs) while the last open is not an accepted one, fit
/// and unfit throughout; tabulate, the walk under a pass rule and provoke also with one unfit
/// argument; then what a fit open alters.
fn unopened(dice: &mut Dice, cells: usize, states: &[&str]) -> Vec<String> {
    let mut list = Scribe::new(dice, cells);
    for state in states {
        list.say_open(state);
        if list.session.is_open {
            list.say_fit("ffj");
        }
    }
    for letter in "kfjcxtwgp".chars() {
        list.say_fit(&letter.to_string());
        list.say_unfit(letter, |_| true);
    }
    for letter in ['t', 'g', 'p'] {
        let places = 0..kinds(letter).len();
        places.for_each(|place| list.say_unfit(letter, |other| other == place));
    }
    list.say_open("2 10 3");
    list.say_fit("fftwgp");
    list.end()
}

/// Opens, and makes every third flag.
fn with_flags(dice: &mut Dice, n: usize) -> Scribe<'_> {
    let mut list = Scribe::new(dice, CELLS);
    let state = list.dice.fit_state(n);
    list.say_open(&state);
    (0..n).step_by(3).for_each(|i| drop(list.say(&format!("f {i}"))));
    list
}

/// Each argument of these calls at each of its edges, the others fit; then all unfit at once.
fn at_edges(dice: &mut Dice, n: usize, letters: &str) -> Vec<String> {
    let mut list = with_flags(dice, n);
    for letter in letters.chars() {
        for (place, &kind) in kinds(letter).iter().enumerate() {
            let count = list.edges(kind).concat().len();
            (0..count).for_each(|which| list.say_edge(letter, place, which));
        }
        list.say_unfit(letter, |_| true);
    }
    list.end()
}

/// Walks of a rule at one of its edges, under pass rules at each of theirs and under "yes", for a
/// row at each of its own: so 7 is met ahead of 9, and 9 under pass rules that forbid all rows.
fn at_all_edges(dice: &mut Dice, n: usize, which: usize) -> Vec<String> {
    let mut list = with_flags(dice, n);
    let [nodes, rows] = [Kind::Node, Kind::Row].map(|kind| list.edges(kind).concat());
    for pass in nodes.iter().map(String::as_str).chain(["1"]) {
        rows.iter().for_each(|row| drop(list.say(&format!("g {} {pass} {row}", nodes[which]))));
    }
    list.end()
}

/// Provokes of any rule under "yes", with sets that are unfit by one bit: a flag of the store that
/// is 1 where all the others are fixed; a bit from n on in the fixed set, in the ones, or in both.
fn unfit_sets(dice: &mut Dice, n: usize) -> Vec<Vec<String>> {
    let all = (1 << n) - 1;
    let outside = (0..n).map(|v| (all - (1 << v), 1 << v));
    let above = (n..16).flat_map(|v| [(1 << v, 0), (0, 1 << v), (1 << v, 1 << v)]);
    let sets: Vec<(usize, usize)> = outside.chain(above).collect();
    let in_list = |sets: &[(usize, usize)]| {
        let mut list = with_flags(dice, n);
        for (fixed, ones) in sets {
            let (rule, wanted) = (list.node(), list.dice.below(2));
            list.say(&format!("p {rule} {wanted} 1 {fixed} {ones}"));
        }
        list.end()
    };
    sets.chunks(32).map(in_list).collect()
}

/// Provokes that are fit, with all kinds of 9 at once, and with each: of the last rule under "yes",
/// and under "no", which leaves no row; the first three also where the rule, the pass rule or both
/// are too high. So 9 is met ahead of 15, and 7 ahead of 9.
fn provoked_at_edges(dice: &mut Dice, n: usize) -> Vec<String> {
    let mut list = with_flags(dice, n);
    let (last, bit) = (list.used() + 1, 1 << n);
    let mut asks = vec![(1, 0, 0), (2, bit, bit + 1), (1, 0, 1)];
    asks.extend([(0, bit - 1, 0), (2, 0, 0), (256, 0, 0), (65535, 0, 0), (1, bit, 0)]);
    for (rule, pass) in [(last, 1), (last, 0), (last + 1, 1), (last, last + 1), (last + 1, 65535)] {
        let count = if rule.max(pass) > last { 3 } else { asks.len() };
        for (wanted, fixed, ones) in &asks[..count] {
            list.say(&format!("p {rule} {wanted} {pass} {fixed} {ones}"));
        }
    }
    list.end()
}

/// Opens, and makes some of the flags.
fn begin(list: &mut Scribe, n: usize) {
    let (state, flags) = (list.dice.fit_state(n), list.dice.order(n));
    list.say_open(&state);
    let count = list.dice.below(n + 1).max(n.min(2));
    flags[..count].iter().for_each(|i| drop(list.say(&format!("f {i}"))));
}

/// Calls that make rules of n flags, all accepted in cells that are enough, up to the last that
/// adds a record.
fn random_steps(dice: &mut Dice, n: usize) -> Vec<String> {
    let most = 3 + dice.below(8 * n);
    let mut list = Scribe::new(dice, CELLS);
    begin(&mut list, n);
    let mut steps = list.calls();
    while list.used() < most && list.calls() < 24 {
        let used = list.used();
        match list.dice.below(6) {
            0 | 1 => list.grow(6, usize::MAX),
            2 => list.say_fix(true),
            3 => list.say_fit("c"),
            _ => list.say_fit("j"),
        }
        steps = if list.used() > used { list.calls() } else { steps };
    }
    list.lines[1..=steps].to_vec()
}

/// A list that begins with these calls, in so many cells.
pub fn played(
    dice: &mut Dice,
    cells: usize,
    calls: impl IntoIterator<Item = impl AsRef<str>>,
) -> Scribe<'_> {
    let mut list = Scribe::new(dice, cells);
    calls.into_iter().for_each(|line| drop(list.say(line.as_ref())));
    list
}

/// These calls, in cells for so many records.
fn said(dice: &mut Dice, room: usize, calls: &str) -> Vec<String> {
    played(dice, WIDTH * room, calls.split(';')).end()
}

/// Lists that make rules and then ask this, thirty-two calls to a list.
fn asked(dice: &mut Dice, made: &str, asks: Vec<String>) -> Vec<Vec<String>> {
    let calls = asks.chunks(32).map(|asks| format!("{made};{}", asks.join(";")));
    calls.map(|calls| said(dice, 20, &calls)).collect()
}

/// All rows of rules under their pass rules.
fn all_rows(n: usize, pairs: &str) -> Vec<String> {
    let rows = |pair| (0..1 << n).map(move |row: usize| format!("g {pair} {row}"));
    pairs.split(';').flat_map(rows).collect()
}

/// Flags fixed in all ways, but at most so many, as the words of their two sets: 3^n if all may be.
fn all_sets(n: usize, most: u32) -> Vec<String> {
    let fixed = (0..1usize << n).filter(|fixed| fixed.count_ones() <= most);
    let within = |fixed| (0..=fixed).filter(move |ones| ones | fixed == fixed);
    fixed.flat_map(|fixed| within(fixed).map(move |ones| format!("{fixed} {ones}"))).collect()
}

/// Both answers of rules under their pass rules, with at most so many flags fixed.
fn all_provokes(n: usize, most: u32, pairs: &str) -> Vec<String> {
    let mut asks = Vec::new();
    for (rule, pass) in pairs.split(';').filter_map(|pair| pair.split_once(' ')) {
        for wanted in [0, 1] {
            let sets = all_sets(n, most).into_iter();
            asks.extend(sets.map(|sets| format!("p {rule} {wanted} {pass} {sets}")));
        }
    }
    asks
}

/// Ten flags, all of them joined by an operator, the opposite of that, and what is provoked.
fn ten(dice: &mut Dice, order: &str, code: usize, provokes: &str) -> Vec<String> {
    let mut calls = vec![format!("o 10 {order} 0")];
    calls.extend((0..10).map(|i| format!("f {i}")));
    calls.push(format!("j {code} @1 @2"));
    calls.extend((3..=10).map(|flag| format!("j {code} @{} @{flag}", flag + 8)));
    calls.push("j 12 @19 0".to_string());
    calls.extend(provokes.split(';').map(str::to_string));
    played(dice, CELLS, calls).end()
}

/// Random rules, and then these calls.
fn random_asks(dice: &mut Dice, n: usize, letters: &str) -> Vec<String> {
    let steps = random_steps(dice, n);
    let mut list = played(dice, CELLS, steps);
    while list.calls() < 40 {
        list.say_any(letters);
    }
    list.end()
}

/// What a full store is asked: results that need no record, others that may, and unfit arguments.
fn ask_full(list: &mut Scribe) {
    for place in list.dice.order(6).into_iter().take(3) {
        let [a, b] = [list.node(), list.node()];
        list.say(&format!("j {} {a} {b}", [0, 3, 5, 10, 12, 15][place]));
    }
    let [a, b] = [list.node(), list.node()];
    list.say(&format!("c {a} {b} {b}"));
    list.say(&format!("c {a} 1 0"));
    for wanted in [false, true, true] {
        list.say_fix(wanted);
    }
    list.say_fit("fjtwgp");
    let letter = list.dice.pick(&['f', 'j', 'c', 'x']);
    list.say_unfit(letter, |place| place == 0);
}

/// The steps in cells for so many records, and what is asked then; with the last step's answer.
fn filled(dice: &mut Dice, steps: &[String], room: usize) -> (String, Vec<String>) {
    let mut list = Scribe::new(dice, WIDTH * room);
    let answers: Vec<String> = steps.iter().map(|step| list.say(step)).collect();
    ask_full(&mut list);
    (answers.last().expect("a step").clone(), list.end())
}

/// The steps in cells that are exactly enough, and in cells for one record fewer.
fn pair(dice: &mut Dice, steps: &[String]) -> [Vec<String>; 2] {
    let needed = played(dice, CELLS, steps).used();
    let (enough, full) = filled(dice, steps, needed);
    assert!(enough.starts_with("rule ") && enough.ends_with(&format!(" used {needed}")));
    let (short, refused) = filled(dice, steps, needed - 1);
    assert!(short.starts_with("refused 10 "), "{short}");
    [full, refused]
}

/// Walks under the rule that was handed back last, for the last row that it allows and the last
/// that it forbids; and a row is provoked of the rule before it.
fn ask_under_last(list: &mut Scribe, rule: &str) {
    let rules = list.session.rules();
    let [before, pass] = [2, 1].map(|from_end| rules[rules.len() - from_end]);
    let allowed = list.session.rule_of_call(pass);
    for is_allowed in [true, false] {
        let mut rows = (0..1 << list.n()).rev();
        let row: usize = rows.find(|row| allowed.contains(row) == is_allowed).expect("such a row");
        list.say(&format!("g {rule} @{pass} {row}"));
    }
    list.say(&format!("p @{before} 1 @{pass} 0 0"));
}

/// Ten flags in all the cells that may be lent, filled as far as the calls reach. The opposites of
/// flags, a record each, come last: one of them is a pass rule whose node is above 255.
fn large(dice: &mut Dice) -> Vec<String> {
    let mut list = Scribe::new(dice, CELLS);
    let (state, flags) = (list.dice.fit_state(10), list.dice.order(10));
    list.say_open(&state);
    flags.iter().for_each(|i| drop(list.say(&format!("f {i}"))));
    while list.calls() < 34 {
        list.grow(24, CELLS / WIDTH - list.used());
    }
    let opposites = (1..=10).map(|call| format!("j 12 @{call} 0"));
    let lacking: Vec<String> = opposites.filter(|line| list.session.needed(line) > 0).collect();
    lacking.iter().take(3).for_each(|line| drop(list.say(line)));
    ask_under_last(&mut list, "@11");
    while list.calls() < 40 {
        list.say_any("jcxwgp");
    }
    list.end()
}

fn flag_count(dice: &mut Dice) -> usize {
    dice.pick(&[0, 1, 1, 2, 2, 2, 2, 3, 3, 3, 3, 3, 3, 4, 4, 4, 4, 4, 4, 5, 5, 5, 5, 6, 7])
}

/// One call of a random list. Opens are rare, but that a fit one soon follows a refused one.
fn step(list: &mut Scribe) {
    let is_open = list.session.is_open;
    if list.dice.one_in(if is_open { 60 } else { 3 }) {
        let n = flag_count(list.dice);
        begin(list, n);
    } else if list.dice.one_in(50) {
        let state = list.dice.unfit_state();
        list.say_open(&state);
    } else if is_open && list.dice.one_in(4) {
        list.grow(6, usize::MAX);
    } else if is_open && list.dice.one_in(5) {
        let wanted = !list.dice.one_in(4);
        list.say_fix(wanted);
    } else if list.dice.one_in(120) {
        list.say_any("rq");
    } else {
        list.say_any("kfjjjjjcccxtwwgggp");
    }
}

/// A list of up to forty calls, in cells that are often few.
fn random(dice: &mut Dice) -> Vec<String> {
    let n = flag_count(dice);
    let room = match dice.below(10) {
        0 => 1024,
        1 | 2 => 20 + dice.below(60),
        _ => dice.below(5 * n + 3),
    };
    let odd = if dice.one_in(25) { 1 + dice.below(2) } else { 0 };
    let calls = if odd > 0 { 12 } else { 9 + dice.below(30).min(dice.below(30)) };
    let mut list = Scribe::new(dice, WIDTH * room + odd);
    if list.dice.one_in(8) {
        (0..2).for_each(|_| list.say_any("kfjcxtwgp"));
    }
    begin(&mut list, n);
    while list.calls() < calls {
        step(&mut list);
    }
    list.lines.truncate(calls + 1);
    list.end()
}

/// All lists of the vectors.
fn lists(dice: &mut Dice) -> Vec<Vec<String>> {
    let mut lists = Vec::new();
    for cells in [0, CELLS] {
        lists.extend(STATES.chunks(17).map(|states| opens(dice, cells, states)));
    }
    lists.extend(UNFIT.iter().map(|(cells, states)| unopened(dice, *cells, states)));
    for n in [0, 1, 2, 3, 7, 10] {
        lists.extend(["kfj", "ct", "xw", "p"].map(|letters| at_edges(dice, n, letters)));
        lists.extend(unfit_sets(dice, n));
        lists.push(provoked_at_edges(dice, n));
    }
    for n in [0, 1, 3, 10] {
        lists.extend((0..4).map(|which| at_all_edges(dice, n, which)));
    }
    for (n, order, calls, pairs) in PASSED {
        let made = format!("o {n} {order} 0;{calls}");
        lists.extend(asked(dice, &made, all_rows(*n, pairs)));
        lists.extend(asked(dice, &made, all_provokes(*n, 0, pairs)));
    }
    for (n, order, calls, pairs) in PROVOKED {
        let (made, most) = (format!("o {n} {order} 0;{calls}"), if *n < 4 { 3 } else { 1 });
        lists.extend(asked(dice, &made, all_provokes(*n, most, pairs)));
    }
    lists.extend(TEN.iter().map(|(order, code, provokes)| ten(dice, order, *code, provokes)));
    for (state, calls) in MADE {
        let open = format!("o {state}");
        let steps = [&open[..]].into_iter().chain(calls.split(';'));
        lists.extend(pair(dice, &steps.map(str::to_string).collect::<Vec<_>>()));
    }
    for n in [2, 3, 3, 4, 4, 5, 5, 6].into_iter().cycle().take(30) {
        let steps = random_steps(dice, n);
        lists.extend(pair(dice, &steps));
    }
    lists.extend((0..16).map(|i| random_asks(dice, 2 + i % 7, "g")));
    lists.extend((2..=10).map(|n| random_asks(dice, n, "p")));
    lists.extend([0x0B5E_55ED_CAFE_0002, 0x0B5E_55ED_CAFE_0003].map(|seed| large(&mut Dice(seed))));
    lists.extend((0..220).map(|_| random(dice)));
    lists.push(said(dice, 10, LENGTHS));
    lists.push(said(dice, 19, &format!("{JOINED};{WALKED}")));
    lists.extend(replays::lists(dice));
    lists
}

/// Every call is accepted and meets every refusal that it tests, and no other.
fn cover(input: &str, output: &str) {
    let mut met: BTreeMap<char, BTreeSet<usize>> = BTreeMap::new();
    let is_call = |line: &&str| !line.starts_with("list ") && *line != "end";
    let told = ["end ", "node ", "sum "];
    let is_answer = |line: &&str| !told.iter().any(|word| line.starts_with(word));
    let answers = output.lines().filter(is_answer);
    for (call, answer) in input.lines().filter(is_call).zip(answers) {
        let number = answer.split("refused ").nth(1).and_then(|rest| rest.split(' ').next());
        let numbers = met.entry(call.chars().next().expect("a letter")).or_default();
        numbers.insert(number.map_or(0, |number| number.parse().expect("a number")));
    }
    for (letter, rows) in TESTED {
        let numbers = [&[0], *rows].concat();
        assert_eq!(met[letter], numbers.into_iter().collect(), "answers of {letter}");
    }
}

/// The lists as input for the test program, and its output.
pub fn vectors() -> (String, String) {
    let lists = lists(&mut Dice(0x0B5E_55ED_CAFE_0004));
    let input: String = lists.concat().iter().map(|line| format!("{line}\n")).collect();
    let output = play(&input);
    assert!(input.len() > BUFFER, "{} bytes of input", input.len());
    cover(&input, &output);
    (input, output)
}
