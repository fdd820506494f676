//! Pass rules in the listing (document 02, request 10): what holds of the numbers of rows under
//! them, and the lines of its vectors that have a `;`, the byte 0A.

use crate::listing::{counts, line, say, tables, with, OTHERS};
use crate::{all_tables, digits, flag_count, table_from, Dice};

/// Tables of none to three flags.
const TABLES: &[&str] = &["1", "10", "0111", "00010111"];

/// Lines of none to three flags, which are ended in every place.
const ENDED: &[&str] =
    &["1;0;1;", "0;1;;1", "01;10;2;", "10;11;01", "0100;1011;01;x", "00010111;10110100;2;"];

/// The first two lines, with a second one that is fit, too short or has another character.
const BEGUN: &[&str] = &["1;0", "0111;0110", "0111;01", "0111;0120"];

/// What may stand behind them, and is ignored.
const LATER: &[&str] = &["", ";", "1", "10", "x", "\0;", "1011", "1011;0001;", "01;2;;"];

/// Line ends of two bytes, 0D being another character.
const TWO_BYTES: &[&str] =
    &["0111\r;", "0111\r;0110\r;", "0111\r;0110", "0111;0110\r;", "0111;\r;"];

/// The paper's table where flag 3 is 0, and where flags 0 and 1 are not both 1.
const SETTLED: &[&str] =
    &["0000010100110111;1111111100000000", "0000010100110111;1110111011101110;"];

/// A line of a table and a pass rule.
fn under(table: &[usize], pass: &[usize]) -> Vec<u8> {
    format!("{};{}", digits(table), digits(pass)).into_bytes()
}

/// All tables of up to one flag under each pass rule, and those of two flags under two.
fn small(dice: &mut Dice) -> Vec<Vec<u8>> {
    let under_each = |table: Vec<usize>| {
        let each = all_tables(flag_count(&table));
        each.map(|pass| under(&table, &pass)).collect::<Vec<_>>()
    };
    let mut lines: Vec<Vec<u8>> = (0..=1).flat_map(all_tables).flat_map(under_each).collect();
    for table in all_tables(2) {
        lines.extend([2, 5].map(|eighths| under(&table, &dice.table(2, eighths))));
    }
    lines
}

/// Some of the tables of n flags that are listed without a pass rule.
fn chosen(dice: &mut Dice, n: usize, number: usize) -> Vec<Vec<usize>> {
    let mut of_n = tables();
    of_n.retain(|table| flag_count(table) == n);
    dice.order(of_n.len()).into_iter().take(number).map(|place| of_n[place].clone()).collect()
}

/// Two tables of n flags, under pass rules that allow none, few, half, most and all of the rows,
/// under the rule itself and its opposite, and under one flag.
fn forms(dice: &mut Dice, n: usize) -> Vec<Vec<u8>> {
    let mut lines = Vec::new();
    for table in chosen(dice, n, 2) {
        let mut rules = [0, 1, 4, 7, 8].map(|eighths| dice.table(n, eighths)).to_vec();
        rules.extend([table.clone(), table.iter().map(|answer| 1 - answer).collect()]);
        let flag = dice.below(n);
        rules.push(table_from(n, |row| (row >> flag) & 1 == 1));
        lines.extend(rules.iter().map(|pass| under(&table, pass)));
    }
    lines
}

/// The tables "yes" and "no" of eight flags under the pass rule "yes".
fn whole() -> [Vec<u8>; 2] {
    ["1", "0"].map(|answer| format!("{};{}", answer.repeat(256), "1".repeat(256)).into_bytes())
}

/// Two rules' AND, and their OR.
fn joined(first: &[usize], second: &[usize]) -> [Vec<usize>; 2] {
    let join = |operator: fn((&usize, &usize)) -> usize| first.iter().zip(second).map(operator);
    [join(|(a, b)| a & b).collect(), join(|(a, b)| a | b).collect()]
}

/// "For two rules under one pass rule, the yes counts of their AND and their OR add up to the sum
/// of their own."
fn add_up(first: &[usize], second: &[usize], pass: &[usize]) -> bool {
    let [and, or] = joined(first, second);
    let yes = |table: &[usize]| counts(table, pass)[0];
    yes(&and) + yes(&or) == yes(first) + yes(second)
}

/// Two rules of n flags, their AND and their OR, under one pass rule.
fn pairs(dice: &mut Dice, n: usize) -> Vec<Vec<u8>> {
    let (mut rules, pass) = (chosen(dice, n, 2), dice.table(n, 5));
    assert!(add_up(&rules[0], &rules[1], &pass), "AND and OR of two rules of {n} flags");
    rules.extend(joined(&rules[0], &rules[1]));
    rules.iter().map(|table| under(table, &pass)).collect()
}

/// Inputs that end in every place, and one of eight flags that ends around each edge.
fn ends(dice: &mut Dice) -> Vec<Vec<u8>> {
    let every = |line: &&str| -> Vec<Vec<u8>> {
        (0..=line.len()).map(|end| line.as_bytes()[..end].to_vec()).collect()
    };
    let mut lines: Vec<Vec<u8>> = ENDED.iter().flat_map(every).collect();
    let table = &chosen(dice, 8, 1)[0];
    let long = [under(table, &dice.table(8, 5)), b";01;".to_vec()].concat();
    let edges = [255, 256, 257, 258, 385, 512, 513, 514, 515, 516, 517];
    lines.extend(edges.map(|end| long[..end].to_vec()));
    lines
}

/// Second lines of every length up to three more than the table's, before a further 0A, and longer
/// ones up to the end; an empty one before a fit one.
fn lengths(dice: &mut Dice) -> Vec<Vec<u8>> {
    let mut lines = Vec::new();
    for table in TABLES.iter().map(|table| table.as_bytes()) {
        let second = |length: usize| [table, &line(length), b""].join(&b';');
        lines.extend((0..=table.len() + 3).map(second));
        lines.push([table, b"", &line(table.len())].join(&b';'));
    }
    let large = digits(&chosen(dice, 8, 1)[0]).into_bytes();
    lines.extend([0, 1, 255, 257, 512].map(|length| [&large[..], &line(length), b""].join(&b';')));
    for table in [b"1", &b"00010111"[..], &large] {
        lines.extend([512, 1024, 1025, 2048].map(|length| [table, &line(length)].join(&b';')));
    }
    lines
}

/// Other characters at the first, a middle and the last place of the second line, alone and with
/// another length.
fn characters(dice: &mut Dice) -> Vec<Vec<u8>> {
    let (table, large) = (&b"00010111"[..], digits(&chosen(dice, 8, 1)[0]).into_bytes());
    let mut lines = Vec::new();
    for &byte in OTHERS {
        lines.extend([0, 4, 7].map(|place| [table, &with(8, place, byte)].join(&b';')));
    }
    for table in TABLES.iter().map(|table| table.as_bytes()) {
        lines.push([table, &with(table.len(), 0, b'2'), b""].join(&b';'));
    }
    for (place, byte) in [(0, b'2'), (128, b'\0'), (255, b'\r')] {
        lines.push([&large[..], &with(256, place, byte)].join(&b';'));
    }
    for length in [1, 3, 7, 9, 16, 1025] {
        for (place, byte) in [(0, b'2'), (length / 2, b'\xFF'), (length - 1, b'\r')] {
            lines.push([table, &with(length, place, byte)].join(&b';'));
        }
    }
    lines
}

/// First lines that are refused: alone, before nothing, an empty line, a fit one, a short one, one
/// with another character, and one with both.
fn firsts() -> Vec<Vec<u8>> {
    let mut firsts: Vec<Vec<u8>> = [0, 3, 512, 1024, 1025].map(line).to_vec();
    let others = [(3, 0), (4, 2), (8, 7), (512, 511), (1025, 9)];
    firsts.extend(others.map(|(length, place)| with(length, place, b'x')));
    let behind = |first: Vec<u8>| -> Vec<Vec<u8>> {
        let length = first.len();
        let fit = [b";", &line(length)[..]].concat();
        let other = [b";", &with(length.max(1), length / 2, b'2')[..]].concat();
        let seconds = [b"", &b";"[..], b";;", &fit, b";01", &other, b";2"];
        seconds.map(|second| [&first, second].concat()).to_vec()
    };
    firsts.into_iter().flat_map(behind).collect()
}

/// "anything later being ignored": short and long, fit and unfit.
fn later() -> Vec<Vec<u8>> {
    let long = String::from_utf8(line(1025)).expect("characters");
    let mut lines = Vec::new();
    for begun in BEGUN {
        let each = LATER.iter().copied().chain([long.as_str()]);
        lines.extend(each.map(|later| format!("{begun};{later}").into_bytes()));
    }
    lines
}

/// The lines with a `;`, and those that end ahead of it.
pub fn lines() -> Vec<Vec<u8>> {
    let dice = &mut Dice(0x0B5E_55ED_CAFE_0016);
    let given = SETTLED.iter().chain(TWO_BYTES);
    let mut lines: Vec<Vec<u8>> = given.map(|line| line.as_bytes().to_vec()).collect();
    lines.extend(small(dice));
    (3..=8).for_each(|n| lines.extend(forms(dice, n)));
    lines.extend(whole());
    let flags = [0, 1, 1, 2, 2, 3, 3, 4, 4, 5, 5, 6, 6, 7, 8];
    flags.iter().for_each(|&n| lines.extend(pairs(dice, n)));
    lines.extend(ends(dice));
    lines.extend(lengths(dice));
    lines.extend(characters(dice));
    lines.extend(firsts());
    lines.extend(later());
    lines
}

/// Under the pass rule "yes" the same is printed as without one, and that no row is forbidden.
fn is_as_without(table: &[usize]) -> bool {
    let no = table.iter().filter(|&&answer| answer == 0).count();
    let line = digits(table);
    let under_yes = format!("{line}\n{}", "1".repeat(table.len()));
    say(under_yes.as_bytes()) == say(line.as_bytes()) + &format!("no {no}\nnever 0\n")
}

/// What doesn't agree among all tables of up to two flags.
pub fn faults() -> Vec<String> {
    let mut faults = Vec::new();
    for pass in (0..=2).flat_map(all_tables) {
        let each = || all_tables(flag_count(&pass));
        let differ = each().any(|first| each().any(|second| !add_up(&first, &second, &pass)));
        if differ {
            faults.push(format!("AND and OR under the pass rule {}", digits(&pass)));
        }
        if !is_as_without(&pass) {
            faults.push(format!("{} under the pass rule \"yes\"", digits(&pass)));
        }
    }
    faults
}
