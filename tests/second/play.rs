//! Lists of store calls, a line a call, and the answer to each. Words stand one blank apart.
//!
//!     list CELLS        begins a list: so many lent cells, 7 in each, and a state of zeros
//!     o N ORDER USED    open, given this state
//!     k V               constant
//!     f I               one flag
//!     j CODE A B        join
//!     c A B C           choose
//!     x A I V           fix flag I to V in A
//!     t A BYTES         tabulate into so many lent bytes, 9 in each
//!     w A ROW           walk
//!     g A PASS ROW      walk under a pass rule
//!     p A WANTED PASS FIXED ONES
//!                       provoke under a pass rule; of the fixed flags those in ONES are 1
//!     r A ODD ROW TIMES ROW TIMES ..
//!                       replay a log: so many snapshots of each row, and where ODD is 1 one
//!                       further byte, a 7
//!     q A PASS ODD ROW TIMES ROW TIMES ..
//!                       replay a log under a pass rule
//!     end               ends the list
//!
//! Each call is given the cells and state as the last one left them, open its own state. An order
//! is a digit for each place, `-` for none; what is not written of its ten places is 0. A node is
//! a number or `@j`, the node that call j of this list handed back; calls are counted from 0.
//!
//! A set of flags is a number, here and in print, bit v for flag v.
//!
//! What is printed, U being the used number of the state handed back, SET the flags asked, and
//! COUNT how many they are; P snapshots of a log were played, Y answered yes, C changed the answer,
//! and flag v was asked Av times:
//!
//!     open           open accepted used U                      open refused K used U
//!     tabulate       table DIGITS used U                       refused K bytes kept used U
//!     walk           answer A asked SET number COUNT used U    refused K used U
//!     provoke        row R used U                              refused K used U
//!     replay         tally P Y C A0 A1 .. A9 used U            refused K used U
//!     any other call rule NODE used U                          refused K used U
//!     end            end used U
//!
//! If the last open was accepted, there follow `node NODE DIGITS` for each node handed back since,
//! each once and as it was named first, and `sum S`: 31r + 7, added up over the yes rows r of the
//! rules of all used records, modulo 65,521.
//!
//! "What these papers leave free [..] is the sequence of records, with the node numbers that follow
//! from it." So a node that the store had only within other rules prints `inner` when it is first
//! handed back, and later `@j`, j being the call that did so. Every other number is fixed: "older
//! node numbers keep their meaning", and a rule that the store lacks is the last of the records
//! that its call adds, children having smaller numbers than their parents.

use crate::book::Book;
use crate::log::{self, log_of, snapshots, Walked};
use crate::store::{flags_in, make, row_count, Ask, Rule, State, Store};
use crate::{collapse, digits, flags_asked, phrase, refuse, set_and_number};

/// A node as the paper fixes it: by its number, or by the call that handed it back first.
#[derive(Clone, Copy, Debug, Eq, Hash, PartialEq)]
pub enum Name {
    Number(usize),
    Inner(usize),
}

/// A node among the arguments.
#[derive(Clone, Copy)]
enum Given {
    Number(usize),
    Call(usize),
}

fn number(word: &str) -> usize {
    word.parse().expect("a number")
}

fn given(word: &str) -> Given {
    word.strip_prefix('@').map_or_else(|| Given::Number(number(word)), |j| Given::Call(number(j)))
}

fn state(n: &str, order: &str, used: &str) -> State {
    let mut places = crate::numbers(order.trim_start_matches('-'));
    places.resize(10, 0);
    State { n: number(n), order: places, used: number(used) }
}

/// The call on a line: what it asks, and the nodes among its arguments.
fn read(line: &str) -> (Ask, Vec<Given>) {
    let words: Vec<&str> = line.split(' ').collect();
    match words[..] {
        ["o", n, order, used] => (Ask::Open(state(n, order, used)), vec![]),
        ["k", value] => (Ask::Constant(number(value)), vec![]),
        ["f", i] => (Ask::Flag(number(i)), vec![]),
        ["j", code, a, b] => (Ask::Join(number(code)), vec![given(a), given(b)]),
        ["c", a, b, c] => (Ask::Choose, vec![given(a), given(b), given(c)]),
        ["x", a, i, value] => (Ask::Fix(number(i), number(value)), vec![given(a)]),
        ["t", a, bytes] => (Ask::Tabulate(number(bytes)), vec![given(a)]),
        ["w", a, row] => (Ask::Walk(number(row)), vec![given(a)]),
        ["g", a, pass, row] => (Ask::Walk(number(row)), vec![given(a), given(pass)]),
        ["p", a, wanted, pass, fixed, ones] => {
            let ask = Ask::Provoke(number(wanted), number(fixed), number(ones));
            (ask, vec![given(a), given(pass)])
        }
        ["r", a, ref log @ ..] => (Ask::Replay(log_of(log)), vec![given(a)]),
        ["q", a, pass, ref log @ ..] => (Ask::Replay(log_of(log)), vec![given(a), given(pass)]),
        _ => panic!("no call: {line}"),
    }
}

/// A list as far as it was played.
pub struct Session {
    pub store: Store,
    book: Book,
    /// The last open was accepted, so that the state is fit.
    pub is_open: bool,
    /// The rules handed back since the last accepted open, by first handing back.
    handed: Vec<(Name, Rule)>,
    /// For each call the node that it handed back, if an accepted open did not wipe it.
    calls: Vec<Option<Name>>,
}

impl Session {
    pub fn new(cells: usize) -> Session {
        let (store, book) = (Store::lent(cells), Book::empty());
        Session { store, book, is_open: false, handed: vec![], calls: vec![] }
    }

    /// The calls whose nodes may stand among arguments.
    pub fn calls(&self) -> Vec<usize> {
        (0..self.calls.len()).filter(|&j| self.calls[j].is_some()).collect()
    }

    /// Of these, for each rule with a record, the call that handed it back last.
    pub fn rules(&self) -> Vec<usize> {
        let is_last = |&j: &usize| !self.calls[j + 1..].contains(&self.calls[j]);
        let is_end = |&j: &usize| matches!(self.calls[j], Some(Name::Number(0..=1)));
        self.calls().into_iter().filter(|j| is_last(j) && !is_end(j)).collect()
    }

    /// The nodes handed back whose numbers are fixed.
    pub fn numbers(&self) -> Vec<usize> {
        let fixed = |name: &Name| if let Name::Number(k) = *name { Some(k) } else { None };
        self.handed.iter().filter_map(|(name, _)| fixed(name)).collect()
    }

    pub fn rule_of_call(&self, j: usize) -> Rule {
        self.rule(self.name_of(Given::Call(j)))
    }

    fn name_of(&self, node: Given) -> Name {
        match node {
            Given::Number(k) => Name::Number(k),
            Given::Call(j) => self.calls[j].expect("a node that was handed back"),
        }
    }

    fn rule(&self, name: Name) -> Rule {
        let held = self.handed.iter().find(|(other, _)| *other == name);
        match name {
            Name::Number(end @ 0..=1) => make(self.store.state.n, &Ask::Constant(end), &[]),
            _ => held.expect("a node whose number is fixed").1.clone(),
        }
    }

    /// The name of a rule that a call made, adding so many records.
    fn name_for(&self, rule: &Rule, added: usize) -> Name {
        let ends = [0, 1].map(Name::Number).into_iter();
        let mut names = ends.chain(self.handed.iter().map(|(name, _)| *name));
        match names.find(|&name| self.rule(name) == *rule) {
            Some(name) => name,
            None if added > 0 => Name::Number(self.store.state.used + 1),
            None => Name::Inner(self.calls.len()),
        }
    }

    /// The rule that a call makes of its arguments.
    fn made(&self, ask: &Ask, arguments: &[Name]) -> Rule {
        let rules: Vec<Rule> = arguments.iter().map(|&name| self.rule(name)).collect();
        make(self.store.state.n, ask, &rules.iter().collect::<Vec<_>>())
    }

    /// The records that a fit call would need.
    pub fn needed(&self, line: &str) -> usize {
        let (ask, nodes) = read(line);
        let arguments: Vec<Name> = nodes.iter().map(|&node| self.name_of(node)).collect();
        self.store.needed(&self.made(&ask, &arguments)).len()
    }

    /// A rule's digits, which are those of the book where it has the rule.
    fn table(&self, name: Name) -> Vec<usize> {
        let rule = self.rule(name);
        let rows = 0..row_count(self.store.state.n);
        let table: Vec<usize> = rows.map(|row| usize::from(rule.contains(&row))).collect();
        assert!(self.book.at(name).map_or(!self.is_open, |other| *other == table), "{name:?}");
        table
    }

    fn open(&mut self, given: &State) -> Result<String, usize> {
        self.is_open = false;
        self.store.open(given)?;
        self.is_open = true;
        self.book = Book::opened(given.n);
        self.handed.clear();
        self.calls.iter_mut().for_each(|name| *name = None);
        Ok("accepted".to_string())
    }

    /// The made rule is handed back, and written in the book.
    fn hand_back(&mut self, ask: &Ask, arguments: &[Name]) -> Result<String, usize> {
        let rule = self.made(ask, arguments);
        let added = self.store.add(&rule)?;
        let name = self.name_for(&rule, added);
        if self.handed.iter().all(|(other, _)| *other != name) {
            self.handed.push((name, rule));
        }
        self.book.write(ask, arguments, name);
        self.table(name);
        self.calls.push(Some(name));
        Ok(format!("rule {}", self.word(name)))
    }

    /// A node in print: `inner` by the call just counted, else `@j`.
    fn word(&self, name: Name) -> String {
        match name {
            Name::Number(k) => k.to_string(),
            Name::Inner(j) if j + 1 == self.calls.len() => "inner".to_string(),
            Name::Inner(j) => format!("@{j}"),
        }
    }

    /// A row for which the pass rule's table, the book's too, says no is refused. "The flags a walk
    /// reports are the rule's own" (document 02, request 5): by its table; up to six flags the
    /// collapse asserts them of its own walks too.
    fn walk(&self, rule: Name, pass: Option<&Name>, row: usize) -> Result<String, usize> {
        let forbids = |pass: &Name| self.table(*pass)[row] == 0;
        refuse(&[(14, pass.map_or(false, forbids))])?;
        let (table, State { n, order, .. }) = (self.table(rule), &self.store.state);
        if *n <= 6 {
            collapse(&table, &order[..*n]);
        }
        let (set, number) = set_and_number(&flags_asked(&table, &order[..*n], row));
        Ok(format!("answer {} asked {set} number {number}", table[row]))
    }

    /// The rows to be provoked, by sets of rows: those that the pass rule allows and that give the
    /// wanted answer, less, for each fixed flag, those in which it has the other value.
    fn serving(&self, rule: Name, pass: Name, [wanted, fixed, ones]: [usize; 3]) -> Rule {
        let [yes, allowed] = [rule, pass].map(|name| self.rule(name));
        let mut rows = if wanted == 1 { &allowed & &yes } else { &allowed - &yes };
        for v in flags_in(fixed) {
            let set = make(self.store.state.n, &Ask::Flag(v), &[]);
            rows = if flags_in(ones).contains(&v) { &rows & &set } else { &rows - &set };
        }
        rows
    }

    /// "the lowest row that the pass rule allows, that has the fixed values and gives the wanted
    /// answer" (document 02, request 8): the first such in the tables, the book's too. It is the
    /// lowest by sets of rows, and walked under the pass rule it gives the answer.
    fn provoke(&self, rule: Name, pass: Name, asked: [usize; 3]) -> Result<String, usize> {
        let [answers, allowed] = [rule, pass].map(|name| self.table(name));
        let [wanted, fixed, ones] = asked;
        let serves =
            |&row: &usize| allowed[row] == 1 && row & fixed == ones && answers[row] == wanted;
        let found = (0..answers.len()).find(serves);
        assert_eq!(found.as_ref(), self.serving(rule, pass, asked).first(), "by sets of rows");
        let row = found.ok_or(15usize)?;
        let walked = self.walk(rule, Some(&pass), row).expect("a row that can happen");
        assert!(walked.starts_with(&format!("answer {wanted} ")), "row {row}: {walked}");
        Ok(format!("row {row}"))
    }

    /// What a walk tells of a row that can happen.
    fn told(&self, rule: Name, pass: Option<&Name>, row: usize) -> Walked {
        let walked = self.walk(rule, pass, row).expect("a row that can happen");
        let words: Vec<&str> = walked.split(' ').collect();
        (number(words[1]), flags_in(number(words[3])).into_iter().collect())
    }

    /// The tally of a log. "Each number equals that of a plain pass over the log using the rule's
    /// table and the walk's flags": those of the collapsed tree, and beside it what walks tell.
    fn replay(&self, rule: Name, pass: Option<&Name>, log: &[u8]) -> Result<String, usize> {
        let (table, rows) = (self.table(rule), snapshots(log));
        let allowed = pass.map(|&pass| self.table(pass));
        log::test(&rows, table.len(), allowed.as_deref())?;
        let State { n, order, .. } = &self.store.state;
        let diagram = collapse(&table, &order[..*n]);
        let tally = log::tally(&rows, |row| (table[row], diagram.walk(row).1));
        assert_eq!(tally, log::updated(&rows, |row| self.told(rule, pass, row)), "by walks");
        Ok(phrase("tally", &tally))
    }

    fn answer(&mut self, ask: &Ask, nodes: &[Given]) -> Result<String, usize> {
        if let Ask::Open(given) = ask {
            return self.open(given);
        }
        let written = |node: &Given| if let Given::Number(k) = *node { k } else { 0 };
        self.store.test(ask, nodes.iter().map(written).max().unwrap_or(0))?;
        let arguments: Vec<Name> = nodes.iter().map(|&node| self.name_of(node)).collect();
        match *ask {
            Ask::Tabulate(_) => Ok(format!("table {}", digits(&self.table(arguments[0])))),
            Ask::Walk(row) => self.walk(arguments[0], arguments.get(1), row),
            Ask::Provoke(wanted, fixed, ones) => {
                self.provoke(arguments[0], arguments[1], [wanted, fixed, ones])
            }
            Ask::Replay(ref log) => self.replay(arguments[0], arguments.get(1), log),
            _ => self.hand_back(ask, &arguments),
        }
    }

    /// The line of output for a call's line.
    pub fn call(&mut self, line: &str) -> String {
        let (ask, nodes) = read(line);
        let count = self.calls.len();
        let answer = self.answer(&ask, &nodes);
        self.calls.resize(count + 1, None);
        let (before, behind) = match ask {
            Ask::Open(_) => ("open ", ""),
            Ask::Tabulate(_) if answer.is_err() => ("", " bytes kept"),
            _ => ("", ""),
        };
        format!("{before}{}{behind} used {}", crate::or_refused(answer), self.store.state.used)
    }

    /// The lines of output at the end of the list.
    fn end(&self) -> String {
        let mut text = format!("end used {}\n", self.store.state.used);
        if self.is_open {
            for &(name, _) in &self.handed {
                let word = if let Name::Number(k) = name { k.to_string() } else { "inner".into() };
                text += &format!("node {word} {}\n", digits(&self.table(name)));
            }
            let rows = self.store.records.iter().flatten().flatten();
            text += &format!("sum {}\n", rows.map(|row| row * 31 + 7).sum::<usize>() % 65_521);
        }
        text
    }
}

/// The output for an input of any number of lists.
pub fn play(input: &str) -> String {
    let mut output = String::new();
    let mut session = Session::new(0);
    for line in input.lines() {
        if let Some(cells) = line.strip_prefix("list ") {
            session = Session::new(number(cells));
        } else if line == "end" {
            output += &session.end();
        } else {
            output += &format!("{}\n", session.call(line));
        }
    }
    output
}
