//! Writes lists of store calls, playing each while it is written: so it knows which nodes may
//! stand among the arguments, and where each argument's edges are.

use crate::log::words_of;
use crate::play::Session;
use crate::store::{depends, row_count};
use crate::{digits, Dice};
use Kind::*;

/// What an argument is. `Sets` has two words, the flags that are fixed and those of them that are
/// 1, and `Log` those of its runs; they stand last.
#[derive(Clone, Copy)]
pub enum Kind {
    Node,
    Flag,
    Value,
    Code,
    Row,
    Bytes,
    Sets,
    Log,
}

/// The calls but open, by their letters.
const CALLS: &[(char, &[Kind])] = &[
    ('k', &[Value]),
    ('f', &[Flag]),
    ('j', &[Code, Node, Node]),
    ('c', &[Node, Node, Node]),
    ('x', &[Node, Flag, Value]),
    ('t', &[Node, Bytes]),
    ('w', &[Node, Row]),
    ('g', &[Node, Node, Row]),
    ('p', &[Node, Value, Node, Sets]),
    ('r', &[Node, Log]),
    ('q', &[Node, Node, Log]),
];

pub fn kinds(letter: char) -> &'static [Kind] {
    CALLS.iter().find(|(other, _)| *other == letter).expect("a call").1
}

impl Dice {
    pub fn pick<T: Clone>(&mut self, from: &[T]) -> T {
        from[self.below(from.len())].clone()
    }

    pub fn one_in(&mut self, count: usize) -> bool {
        self.below(count) == 0
    }

    /// A state of n flags that open takes, with any used number.
    pub fn fit_state(&mut self, n: usize) -> String {
        let order = if n == 0 { "-".to_string() } else { digits(&self.order(n)) };
        format!("{n} {order} {}", self.pick(&[0, 0, 0, 1, 7, 1024, 65535]))
    }

    /// A state that it refuses: n above 10, a flag missing and another twice, or a place too many.
    pub fn unfit_state(&mut self) -> String {
        let mut n = 2 + self.below(5);
        let mut order = self.order(n);
        match self.below(3) {
            0 => n = self.pick(&[11, 12, 255]),
            1 => order[0] = order[n - 1],
            _ => order.push(1 + self.below(9)),
        }
        format!("{n} {} {}", digits(&order), self.pick(&[0, 1, 5, 65535]))
    }
}

/// The two sets where a table has so many rows: no flag fixed, all to 0, all to 1; then bit n in
/// either and in both, all bits, and flag 0 that is 1 and not fixed.
fn edges_of_sets(rows: usize) -> [Vec<String>; 2] {
    let fit = vec![(0, 0), (rows - 1, 0), (rows - 1, rows - 1)];
    let unfit = vec![(rows, 0), (0, rows), (rows, rows), (65535, 65535), (0, 1)];
    [fit, unfit].map(|all| all.iter().map(|(fixed, ones)| format!("{fixed} {ones}")).collect())
}

/// No snapshots, one, and several; then a byte too many, and a row that is not below 2^n, each
/// alone and behind others.
fn edges_of_logs(rows: usize) -> [Vec<String>; 2] {
    let all = ["0;0 last 1;0 0 2 last 3", "1;1 last 1;0 rows 1;0 last 2 rows 1;0 65535 1"];
    let [last, rows] = [rows - 1, rows].map(|row| row.to_string());
    let log = |words: &str| words.replace("last", &last).replace("rows", &rows);
    all.map(|all| all.split(';').map(log).collect())
}

/// A list that is being written.
pub struct Scribe<'a> {
    pub dice: &'a mut Dice,
    pub session: Session,
    pub lines: Vec<String>,
}

impl Scribe<'_> {
    pub fn new(dice: &mut Dice, cells: usize) -> Scribe<'_> {
        Scribe { dice, session: Session::new(cells), lines: vec![format!("list {cells}")] }
    }

    pub fn calls(&self) -> usize {
        self.lines.len() - 1
    }

    pub fn n(&self) -> usize {
        self.session.store.state.n
    }

    pub fn used(&self) -> usize {
        self.session.store.state.used
    }

    pub fn end(mut self) -> Vec<String> {
        assert!(self.calls() <= 40, "more than forty calls");
        self.lines.push("end".to_string());
        self.lines
    }

    /// Writes a call and gives its answer.
    pub fn say(&mut self, line: &str) -> String {
        self.lines.push(line.to_string());
        self.session.call(line)
    }

    pub fn say_open(&mut self, state: &str) {
        self.say(&format!("o {state}"));
    }

    /// The fit values of an argument at its edges, and the unfit ones next to these and far off.
    pub fn edges(&self, kind: Kind) -> [Vec<String>; 2] {
        let (n, used, rows) = (self.n(), self.used().min(65533), row_count(self.n()));
        let numbers = match kind {
            Node => [vec![0, used + 1], vec![used + 2, 65535]],
            Flag if n == 0 => [vec![], vec![0, 255]],
            Flag => [vec![0, n - 1], vec![n, 255]],
            Value => [vec![0, 1], vec![2, 255]],
            Code => [vec![0, 15], vec![16, 255]],
            Row => [vec![0, rows - 1], vec![rows, 65535]],
            Bytes => [vec![rows], vec![rows - 1, rows + 1, 0]],
            Sets => return edges_of_sets(rows),
            Log => return edges_of_logs(rows),
        };
        numbers.map(|numbers| numbers.iter().map(usize::to_string).collect())
    }

    /// A node that was handed back, more often a rule with records, and one of the last.
    pub fn node(&mut self) -> String {
        let [calls, rules] = [self.session.calls(), self.session.rules()];
        let numbers = [self.session.numbers(), vec![0, 1]].concat();
        match self.dice.below(16) {
            0 | 1 => self.dice.pick(&numbers).to_string(),
            2 if !calls.is_empty() => format!("@{}", self.dice.pick(&calls)),
            _ if rules.is_empty() => self.dice.below(2).to_string(),
            3..=9 => format!("@{}", self.dice.pick(&rules[rules.len().saturating_sub(4)..])),
            _ => format!("@{}", self.dice.pick(&rules)),
        }
    }

    /// About a fourth of the flags fixed to any values; unfit, one of sixteen bits is 1 and not
    /// fixed.
    fn sets(&mut self, is_fit: bool) -> String {
        let rows = row_count(self.n());
        let fixed = self.dice.below(rows) & self.dice.below(rows);
        let ones = self.dice.below(rows);
        let outside = if is_fit { 0 } else { 1 << self.dice.below(16) };
        format!("{} {}", fixed & !outside, (fixed & ones) | outside)
    }

    /// Up to four runs of up to three snapshots; unfit, one of the rows is not below 2^n, or there
    /// is a byte too many.
    fn log(&mut self, is_fit: bool) -> String {
        let (rows, count) = (row_count(self.n()), self.dice.below(5));
        let unfit = if is_fit { None } else { Some(self.dice.below(count + 1)) };
        let above = |place: usize| if unfit == Some(place) { rows } else { 0 };
        let run = |place| (above(place) + self.dice.below(rows), 1 + self.dice.below(3));
        words_of(usize::from(unfit == Some(count)), (0..count).map(run))
    }

    /// A fit argument, or an unfit one; of the operators more often one that asks both rules.
    fn argument(&mut self, kind: Kind, is_fit: bool) -> String {
        let ([fit, unfit], n) = (self.edges(kind), self.n());
        match kind {
            Sets if !self.dice.one_in(4) => self.sets(is_fit),
            Log if !self.dice.one_in(4) => self.log(is_fit),
            _ if !is_fit => self.dice.pick(&unfit),
            Node => self.node(),
            Code if self.dice.one_in(3) => self.dice.below(16).to_string(),
            Code => self.dice.pick(&[1, 2, 4, 6, 6, 7, 8, 9, 11, 13, 14]).to_string(),
            Row => self.dice.below(row_count(n)).to_string(),
            Flag => self.dice.below(n.max(1)).to_string(),
            Value | Bytes | Sets | Log => self.dice.pick(&fit),
        }
    }

    /// A call in which the arguments at some places are unfit.
    fn line(&mut self, letter: char, is_unfit: impl Fn(usize) -> bool) -> String {
        let words = kinds(letter).iter().enumerate();
        let words = words.map(|(place, &kind)| self.argument(kind, !is_unfit(place)));
        words.fold(letter.to_string(), |line, word| line + " " + &word)
    }

    pub fn say_unfit(&mut self, letter: char, is_unfit: impl Fn(usize) -> bool) {
        let line = self.line(letter, is_unfit);
        self.say(&line);
    }

    pub fn say_fit(&mut self, letters: &str) {
        letters.chars().for_each(|letter| self.say_unfit(letter, |_| false));
    }

    /// A call in which the argument at a place is one of its edges.
    pub fn say_edge(&mut self, letter: char, place: usize, which: usize) {
        let fit = self.line(letter, |_| false);
        let mut words: Vec<&str> = fit.splitn(1 + kinds(letter).len(), ' ').collect();
        let edge = self.edges(kinds(letter)[place]).concat()[which].clone();
        words[place + 1] = &edge;
        self.say(&words.join(" "));
    }

    /// Any of these calls. One in eight has an unfit argument, and a few have no other.
    pub fn say_any(&mut self, letters: &str) {
        let letter = char::from(self.dice.pick(letters.as_bytes()));
        let (unfit, place) = (self.dice.below(40), self.dice.below(kinds(letter).len()));
        self.say_unfit(letter, |other| unfit == 0 || (unfit <= 5 && other == place));
    }

    /// Of several calls that one which needs the most records up to a number, or the last of none.
    pub fn grow(&mut self, tries: usize, most: usize) {
        let letters = "jc".chars().cycle().take(tries);
        let lines: Vec<String> = letters.map(|letter| self.line(letter, |_| false)).collect();
        let within = |line: &&String| Some(self.session.needed(line)).filter(|&need| need <= most);
        let best = lines.iter().max_by_key(within);
        self.say(best.expect("a try"));
    }

    /// Fixes a flag that a rule depends on, or one that it does not, if there is one; of three
    /// rules that which depends on the most.
    pub fn say_fix(&mut self, wanted: bool) {
        let (n, rules) = (self.n(), self.session.rules());
        let on = |j: usize| {
            let rule = self.session.rule_of_call(j);
            (0..n).filter(|&i| depends(&rule, i)).collect::<Vec<usize>>()
        };
        let three = (0..3).filter(|_| !rules.is_empty()).map(|_| self.dice.pick(&rules));
        if let Some((on, j)) = three.map(|j| (on(j), j)).max_by_key(|(on, _)| on.len()) {
            let flags: Vec<usize> = (0..n).filter(|i| on.contains(i) == wanted).collect();
            if !flags.is_empty() {
                let (i, value) = (self.dice.pick(&flags), self.dice.below(2));
                self.say(&format!("x @{j} {i} {value}"));
            }
        }
    }
}
