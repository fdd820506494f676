//! The store of several rules, by their tables alone: there are no cells and no node numbers here.
//! A record is known by the rule that its node stands for, and what a result needs is read off
//! the paper's sentences on rules.

use crate::{are_unfit, is_order, log, refuse, WIDTH};
use std::collections::BTreeSet;

/// A rule by its table: the set of the rows that say yes.
pub type Rule = BTreeSet<usize>;

/// "n, the order, the number of records used"; the order has all its ten places.
#[derive(Clone, Debug)]
pub struct State {
    pub n: usize,
    pub order: Vec<usize>,
    pub used: usize,
}

/// What a call asks, but for the nodes among its arguments. A walk and a replay have one, their
/// rule, or behind it a pass rule too; provoke has both.
#[derive(Clone, Debug)]
pub enum Ask {
    Open(State),
    Constant(usize),
    Flag(usize),
    Join(usize),
    Choose,
    Fix(usize, usize),
    Tabulate(usize),
    Walk(usize),
    /// The wanted answer, and two sets of flags: "which are fixed and which of these are 1".
    Provoke(usize, usize, usize),
    /// The log's bytes.
    Replay(Vec<u8>),
}

/// The rule of a table of bytes.
pub fn rule_of(table: &[usize]) -> Rule {
    (0..table.len()).filter(|&row| table[row] == 1).collect()
}

/// 2^n; above ten flags no answer rests on it.
pub fn row_count(n: usize) -> usize {
    1 << n.min(10)
}

/// The flags in a set of 16 bits, bit v standing for flag v.
pub fn flags_in(set: usize) -> BTreeSet<usize> {
    (0..16).filter(|v| (set >> v) & 1 == 1).collect()
}

/// "a wanted answer above 1, a set bit at or above n, or a 1 outside the fixed set, gives 9"
/// (document 02, request 8).
fn is_unfit_provoke(n: usize, wanted: usize, fixed: usize, ones: usize) -> bool {
    let [fixed, ones] = [fixed, ones].map(flags_in);
    let has_from_n = |set: &BTreeSet<usize>| set.iter().any(|&v| v >= n);
    wanted > 1 || has_from_n(&fixed) || has_from_n(&ones) || !ones.is_subset(&fixed)
}

pub fn constant(n: usize, value: usize) -> Rule {
    (0..row_count(n)).filter(|_| value == 1).collect()
}

/// "its four digits answer for (first, second) = 00, 01, 10, 11 from the left": all rows of those
/// pairs whose digit is 1.
fn join(n: usize, code: usize, first: &Rule, second: &Rule) -> Rule {
    let neither = &(&constant(n, 1) - first) - second;
    let pairs = [neither, second - first, first - second, first & second];
    let digits = format!("{code:04b}");
    let said = digits.chars().zip(&pairs).filter(|(digit, _)| *digit == '1');
    said.flat_map(|(_, rows)| rows.iter().copied()).collect()
}

/// "the result no longer depends on it": a yes row that has the value takes along the row that
/// differs from it in this flag.
pub fn fix(rule: &Rule, i: usize, value: usize) -> Rule {
    let kept = rule.iter().filter(|&row| (row >> i) & 1 == value);
    kept.flat_map(|row| [row & !(1 << i), row | (1 << i)]).collect()
}

pub fn depends(rule: &Rule, i: usize) -> bool {
    fix(rule, i, 0) != fix(rule, i, 1)
}

/// The rule that a call makes of the rules among its arguments.
pub fn make(n: usize, ask: &Ask, rules: &[&Rule]) -> Rule {
    match (ask, rules) {
        (Ask::Constant(value), []) => constant(n, *value),
        (Ask::Flag(i), []) => (0..row_count(n)).filter(|row| (row >> i) & 1 == 1).collect(),
        (Ask::Join(code), [first, second]) => join(n, *code, first, second),
        (Ask::Choose, [first, second, third]) => &(*first & *second) | &(*third - *first),
        (Ask::Fix(i, value), [rule]) => fix(rule, *i, *value),
        _ => panic!("{ask:?} makes no rule of {} others", rules.len()),
    }
}

/// "Nodes asking flag v number the distinct rules that depend on v and arise by fixing the flags
/// before v in all ways": these rules for each v, the flag asked first standing first.
pub fn levels_of(rule: &Rule, order: &[usize]) -> Vec<BTreeSet<Rule>> {
    let mut levels = Vec::new();
    let mut arisen = BTreeSet::from([rule.clone()]);
    for &v in order {
        let [mut level, mut next] = [BTreeSet::new(), BTreeSet::new()];
        for rule in arisen {
            let [low, high] = [0, 1].map(|value| fix(&rule, v, value));
            if low != high {
                level.insert(rule);
            }
            next.extend([low, high]);
        }
        levels.push(level);
        arisen = next;
    }
    levels
}

/// The same for all v, one for each record of the rule's own diagram.
pub fn records_of(rule: &Rule, order: &[usize]) -> BTreeSet<Rule> {
    levels_of(rule, order).into_iter().flatten().collect()
}

/// The state as the last call left it, and what stands in the lent cells: the rules of the records
/// added since the last accepted open, or None where the cells are as they were lent, 7 in each.
pub struct Store {
    pub cells: usize,
    pub state: State,
    pub records: Option<BTreeSet<Rule>>,
}

impl Store {
    /// No cells at all hold no records, as if cleared.
    pub fn lent(cells: usize) -> Store {
        let state = State { n: 0, order: vec![0; 10], used: 0 };
        Store { cells, state, records: Some(BTreeSet::new()).filter(|_| cells == 0) }
    }

    /// Cells as lent are not 0 past the used records, and as records have equal children, 7 and 7.
    /// With fewer used than were added, a record stands past the used ones; with more, a record of
    /// zeros has equal children or the cells hold too few.
    fn is_sound(&self) -> bool {
        self.records.as_ref().map(BTreeSet::len) == Some(self.state.used)
    }

    /// The refusal table down to 9, for a call whose highest node is given. Open is tested by the
    /// state that it is given, and "tests neither 6 nor 7". A log is "tested after 7 and before its
    /// rows" (document 02, request 9), which are not tested here.
    pub fn test(&self, ask: &Ask, highest: usize) -> Result<(), usize> {
        let is_open = matches!(ask, Ask::Open(_));
        let State { n, order, used } = if let Ask::Open(given) = ask { given } else { &self.state };
        let unfit = match ask {
            Ask::Constant(value) => *value > 1,
            Ask::Flag(i) => i >= n,
            Ask::Join(code) => *code > 15,
            Ask::Fix(i, value) => i >= n || *value > 1,
            Ask::Walk(row) => *row >= row_count(*n),
            Ask::Provoke(wanted, fixed, ones) => is_unfit_provoke(*n, *wanted, *fixed, *ones),
            Ask::Open(_) | Ask::Choose | Ask::Tabulate(_) | Ask::Replay(_) => false,
        };
        refuse(&[
            (1, *n > 10),
            (2, matches!(ask, Ask::Tabulate(bytes) if *bytes != row_count(*n))),
            (4, !is_order(order, *n)),
            (5, are_unfit(self.cells)),
            (6, !is_open && !self.is_sound()),
            (7, !is_open && highest > used + 1),
            (16, matches!(ask, Ask::Replay(log) if log::is_unfit(log))),
            (9, unfit),
        ])
    }

    /// "takes n and the order from the state it is given, with any used number, clears all the
    /// cells, and sets used to 0"; refused, it hands back "the state it was given".
    pub fn open(&mut self, given: &State) -> Result<(), usize> {
        let tested = self.test(&Ask::Open(given.clone()), 0);
        self.state = given.clone();
        if tested.is_ok() {
            self.state.used = 0;
            self.records = Some(BTreeSet::new());
        }
        tested
    }

    /// "The records that a result needs are those of its own diagram that the store lacks".
    pub fn needed(&self, rule: &Rule) -> BTreeSet<Rule> {
        let held = self.records.as_ref().expect("sound cells");
        let own = records_of(rule, &self.state.order[..self.state.n]);
        own.difference(held).cloned().collect()
    }

    /// "an accepted call adds these and no others": how many it adds, or 10.
    pub fn add(&mut self, rule: &Rule) -> Result<usize, usize> {
        let mut needed = self.needed(rule);
        let added = needed.len();
        refuse(&[(10, added > self.cells / WIDTH - self.state.used)])?;
        self.state.used += added;
        self.records.iter_mut().for_each(|held| held.append(&mut needed));
        Ok(added)
    }
}
