//! The diagrams that are printed in the vectors, and the calls that are refused.

use crate::damaged::LONGEST;
use crate::file_edges::{given, overfull, pairs, RECORDS, WRITES};
use crate::file_lines;
use crate::files::{are_sound, diagram, in_sequence, Filed, Given, Record};
use crate::permitted::{breaks_of, unsettled};
use crate::sheet::{play, print, say, taken, PAGE, RECORD_LINES, WORKED};
use crate::{damaged, each_once, numbers, orders, sized, Dice, CELLS, WIDTH};
use std::collections::BTreeSet;

/// The most bytes and cells that a line lends, and about the most bytes of output.
const MOST: (usize, usize) = (8000, CELLS + WIDTH);
const OUTPUT: usize = 250_000;

/// Flags, and the records of a diagram that has so many: about a page, and about two.
const COUNTS: &[(usize, usize)] = &[(1, 1), (8, 57), (8, 58), (8, 59), (9, 116), (9, 117)];

/// What may be wrong with the call of `small`, and the number that it gives, so that the first of
/// two wins: a record out of reach is 6 only "with a root up to used records + 1", and so behind 7.
const FAULTS: &[(usize, fn(&mut Given, &mut usize))] = &[
    (1, |given, _| given.n = 11),
    (4, |given, _| given.order[0] = given.order[1]),
    (4, |given, _| given.order[9] = 1),
    (5, |given, _| given.cells.push(0)),
    (5, |given, _| given.cells.resize(CELLS + WIDTH, 0)),
    (6, |given, _| given.cells[1] = given.cells[2]),
    (6, |given, _| given.used = 7), // the cells hold six
    (6, |given, _| given.cells[5 * WIDTH + 2] = 1),
    (7, |given, _| given.root = given.used + 2),
    (7, |given, _| given.root = 65535),
    (6, |given, _| given.cells[4 * WIDTH + 1] = 2), // the root's low node was 4
    (10, |_, bytes| *bytes -= 1),
    (10, |_, bytes| *bytes = 0),
];

/// What may be wrong with a diagram of several pages in cells that hold its records exactly: in its
/// last two records, in the number used, past the used ones, in the root.
const LATE_FAULTS: &[(usize, fn(&mut Given))] = &[
    (5, |given| given.cells.push(0)),
    (6, |given| *last(given, 0) = given.n),
    (6, |given| *last(given, 0) = given.order[given.n - 1]), // its children ask no later flag
    (6, |given| *last(given, 1) = given.used + 1),
    (6, |given| *last(given, 2) = given.used + 1),
    (6, |given| *last(given, 1) = *last(given, 2)),
    (6, repeat),
    (6, |given| given.used += 1),
    (6, |given| (given.used, given.root) = (given.used - 1, given.root - 1)),
    (6, |given| given.cells.resize(given.cells.len() + WIDTH, 1)),
    (6, |given| given.root -= 1),
    (6, |given| given.root = 1),
    (7, |given| given.root += 1),
    (7, |given| given.root = 65535),
];

/// A cell of the last record.
fn last(given: &mut Given, at: usize) -> &mut usize {
    &mut given.cells[(given.used - 1) * WIDTH + at]
}

/// The last record but one is made equal to the one before it.
fn repeat(given: &mut Given) {
    let at = (given.used - 2) * WIDTH;
    given.cells.copy_within(at - WIDTH..at, at);
}

/// A rule of ten flags with as many records as there can be, in the rising order and in sequence:
/// those that ask flag 9 or 8 have all pairs of later nodes, those that ask flag 7 the first 128,
/// and a tree stands above.
pub fn fullest() -> Filed {
    let mut records: Vec<Record> = Vec::new();
    for (flag, count) in [(9, 2), (8, 12), (7, 128)] {
        let nodes = records.len() + 2;
        let pairs = (0..nodes * nodes).map(|pair| [flag, pair / nodes, pair % nodes]);
        records.extend(pairs.filter(|record| record[1] != record[2]).take(count));
    }
    let mut sons = 16..144;
    for flag in (0..7).rev() {
        let first = sons.end;
        records.extend(sons.step_by(2).map(|low| [flag, low, low + 1]));
        sons = first..records.len() + 2;
    }
    let filed = Filed { order: (0..10).collect(), label: vec![], records, root: LONGEST + 1 };
    assert!(filed.records.len() == LONGEST && breaks_of(&filed).is_empty());
    filed
}

/// No records, for both end nodes and for no flags and several; then `COUNTS`, in sequence; then
/// the most.
pub fn counted(dice: &mut Dice) -> Vec<Filed> {
    let ends = [(0, 0), (0, 1), (4, 0), (4, 1)];
    let none = ends.map(|(n, root)| (dice.order(n), root));
    let none = none.map(|(order, root)| Filed { order, label: vec![], records: vec![], root });
    let some = COUNTS.iter().map(|&(n, count)| {
        let order = dice.order(n);
        in_sequence(&dice.filed(order, "", count, count))
    });
    none.into_iter().chain(some.collect::<Vec<_>>()).chain([fullest()]).collect()
}

fn with_records(counted: &[Filed], count: usize) -> &Filed {
    counted.iter().find(|filed| filed.records.len() == count).expect("a diagram of so many records")
}

/// The bytes of a diagram's pages.
fn bytes_of(filed: &Filed) -> usize {
    PAGE * filed.records.chunks(RECORD_LINES).count().max(1)
}

/// A diagram in bytes just enough, one too few, none, one more, a hundred more and a page more; of
/// several pages also in those of one page fewer.
fn lent(filed: &Filed) -> Vec<String> {
    let exact = bytes_of(filed);
    let mut lengths = vec![exact, exact - 1, 0, exact + 1, exact + 100, exact + PAGE];
    lengths.extend(Some(exact - PAGE).filter(|&bytes| bytes > 0));
    lengths.into_iter().map(|bytes| say(&given(filed), bytes)).collect()
}

/// A call with bytes enough and with one too few.
fn both(given: &Given, exact: usize) -> [String; 2] {
    [exact, exact - 1].map(|bytes| say(given, bytes))
}

/// A diagram in cells for one record more, and in all that may be lent.
fn roomy(filed: &Filed) -> Vec<String> {
    let mut given = given(filed);
    let lengths = [given.cells.len() + WIDTH, CELLS];
    let lines = lengths.map(|length| {
        given.cells.resize(length, 0);
        both(&given, bytes_of(filed))
    });
    lines.concat()
}

/// Rules in other permitted sequences than request 3's, beside it the same rules in that one; of
/// the longer ones, which are printed in sequence above, only the other.
fn sequences(dice: &mut Dice, counted: &[Filed]) -> Vec<String> {
    let short = [2, 3, 3, 4, 5, 6].map(|n| unsettled(dice, |dice| damaged::any(dice, n)));
    let long = counted.iter().filter(|filed| filed.records.len() >= RECORD_LINES);
    let long: Vec<Filed> = long.map(|filed| unsettled(dice, |_| filed.clone())).collect();
    let settled = short.iter().map(in_sequence).collect::<Vec<_>>();
    let all = short.iter().chain(&settled).chain(&long);
    all.map(|filed| say(&given(filed), bytes_of(filed))).collect()
}

/// An order of more flags, in which those of the given one stand in its sequence.
fn widened(dice: &mut Dice, order: &[usize], n: usize) -> Vec<usize> {
    let mut wide = order.to_vec();
    (order.len()..n).for_each(|flag| wide.insert(dice.below(wide.len() + 1), flag));
    wide
}

/// The same records under other orders of as many flags, of one more and of ten; 59 under ten only.
fn elsewhere(dice: &mut Dice, counted: &[Filed]) -> Vec<String> {
    let longer = with_records(counted, 59);
    let order = widened(dice, &longer.order, 10);
    let longer = Filed { order, ..longer.clone() };
    let mut lines = both(&given(&longer), bytes_of(&longer)).to_vec();
    for (table, order) in [("0011", "01"), ("00011011", "012"), ("0001000100011111", "0123")] {
        let filed = Filed::collapsed(&numbers(table), numbers(order), "");
        let n = filed.order.len();
        let fit = orders(n, &[]).into_iter().filter(|order| are_sound(&filed.records, order));
        let mut all: Vec<Vec<usize>> = fit.collect();
        all.extend([n + 1, n + 1, 10, 10].map(|wide| widened(dice, &filed.order, wide)));
        let with = |order| given(&Filed { order, ..filed.clone() });
        lines.extend(all.into_iter().map(|order| say(&with(order), PAGE)));
    }
    lines
}

/// The writer's edges, but for labels: each with the bytes of a page and with one too few.
fn edges() -> Vec<String> {
    let recorded = RECORDS.iter().map(|(order, records)| {
        let (order, records, root) = (numbers(order), records.to_vec(), records.len() + 1);
        given(&Filed { order, label: vec![], records, root })
    });
    let written = WRITES.iter().map(|line| {
        let line = sized(line);
        file_lines::given(&line.split(' ').collect::<Vec<_>>()).0
    });
    let all = recorded.chain(written.filter(|given| given.label.is_empty()));
    all.flat_map(|given| both(&given, PAGE)).collect()
}

/// Parity of three flags, flag 2 asked first, in cells for six records.
fn small() -> Given {
    let filed = in_sequence(&Filed::collapsed(&numbers("01101001"), vec![2, 0, 1], ""));
    let mut given = given(&filed);
    given.cells.resize(6 * WIDTH, 0);
    given
}

/// Each one of the faults, and each two: the first gives its number.
fn small_faults() -> Vec<(usize, String)> {
    let say = |pair: Vec<usize>| {
        let (mut given, mut bytes) = (small(), PAGE);
        pair.iter().for_each(|&at| FAULTS[at].1(&mut given, &mut bytes));
        (FAULTS[pair[0]].0, say(&given, bytes))
    };
    pairs(FAULTS.len()).into_iter().map(say).collect()
}

/// The late faults of a diagram, each with bytes enough and with one too few.
fn late_faults(filed: &Filed) -> Vec<(usize, String)> {
    let say = |(number, fault): &(usize, fn(&mut Given))| {
        let mut given = given(filed);
        fault(&mut given);
        both(&given, bytes_of(filed)).map(|line| (*number, line))
    };
    LATE_FAULTS.iter().flat_map(say).collect()
}

/// All cells used: a record is out of reach, or the root is no node. The bytes are too few.
fn overfull_faults() -> Vec<(usize, String)> {
    let filed = overfull();
    let call = |root: usize| say(&given(&Filed { root, ..filed.clone() }), MOST.0);
    vec![(6, call(filed.root)), (7, call(filed.root + 1))]
}

/// Calls that are refused, with their numbers.
pub fn faulty(counted: &[Filed]) -> Vec<(usize, String)> {
    let late = [59, 117].map(|count| late_faults(with_records(counted, count)));
    [small_faults(), late.concat(), overfull_faults()].concat()
}

/// Every refusal that print tests is met, and no other. Diagrams of each count are printed, for
/// both end nodes, in sequence and out of it, in the rising order and another, and in cells that
/// hold just the records and more.
fn cover(lines: &[String]) {
    let (mut refused, mut counts, mut met) = (BTreeSet::new(), BTreeSet::new(), BTreeSet::new());
    for line in lines {
        let (given, bytes) = taken(line);
        assert!(bytes <= MOST.0 && given.cells.len() <= MOST.1, "{line}: more than may be lent");
        refused.extend(print(&given, &mut vec![85; bytes]).err());
        if let Some(filed) = diagram(&given).ok().filter(|filed| bytes >= bytes_of(filed)) {
            let is_rising = filed.order.iter().copied().eq(0..given.n);
            counts.insert((filed.records.len(), filed.root));
            met.insert(("in sequence", breaks_of(&filed).is_empty()));
            met.insert(("rising", is_rising));
            met.insert(("just enough cells", given.cells.len() == WIDTH * given.used));
        }
    }
    assert_eq!(refused, BTreeSet::from([1, 4, 5, 6, 7, 10]));
    assert_eq!(met.len(), 6, "{met:?}");
    let wanted = COUNTS.iter().map(|(_, count)| (*count, count + 1));
    let wanted = wanted.chain([(0, 0), (0, 1), (LONGEST, LONGEST + 1)]).collect();
    assert!(counts.is_superset(&wanted), "{counts:?}");
}

/// The input for the test program, and its output.
pub fn vectors() -> (String, String) {
    let mut dice = Dice(0x0B5E_55ED_CAFE_0012);
    let counted = counted(&mut dice);
    let mut lines: Vec<String> = WORKED.iter().map(|(input, _)| sized(input)).collect();
    counted.iter().for_each(|filed| lines.extend(lent(filed)));
    for count in [0, 1, 58, 59] {
        lines.extend(roomy(with_records(&counted, count)));
    }
    lines.extend(sequences(&mut dice, &counted));
    lines.extend(elsewhere(&mut dice, &counted));
    lines.extend(edges());
    lines.extend(faulty(&counted).into_iter().map(|(_, line)| line));
    let lines = each_once(lines);
    cover(&lines);
    let input: String = lines.iter().map(|line| format!("{line}\n")).collect();
    let output = play(&input);
    assert!(output.len() < OUTPUT, "{} bytes of output", output.len());
    (input, output)
}
