//! The inputs in the vectors of the program that plays a log: tables of each number of flags and
//! random logs, logs of 32,767 snapshots, each refusal on both sides of its edge, and two at once.

use crate::listing::{line, with};
use crate::log::{input_of, say, words_of, written_out, LONGEST, WORKED};
use crate::{all_tables, digits, each_once, recast, table_from, tables_with_form, Dice};
use std::collections::BTreeSet;

/// The most bytes of input, and of output.
const MOST: usize = 150_000;

/// Logs at the edges of their length, in row 0.
const LENGTHS: &str = "0;1;0 0 1;1 0 1;0 0 2;1 0 2;0 0 16384;0 0 32766;1 0 32766;0 0 32767;\
    1 0 32767;0 0 32768;1 0 32768;0 0 32769;0 0 35000;0 0 40000;1 0 40000";

/// Logs that have the byte 0A: in rows 10, 266 and 522 it is the low byte, in row 2560 the high
/// one, and in row 2570 both.
const LINE_ENDS: &str = "0 10 1;0 10 2 1 1;0 1 1 10 1 3 1;1 10 1;0 2560 1;0 2570 2;0 1 1 2570 1;\
    0 266 1 1 1;0 0 1 522 2 10 1 3 1";

/// Rows with a high byte, and rows that are others with their bytes exchanged.
const HIGH: &[usize] = &[1, 256, 2, 258, 513, 511, 512, 3, 768, 259, 769, 1023, 1024, 2048, 65535];

/// What follows a table of two flags: nothing; no snapshots, and fit ones; a log of odd length, one
/// that is too long, rows that are too high; and two of these.
const BEHIND: &[&str] = &[
    "",
    ";0",
    ";0 1 1 3 2",
    ";1 1 1",
    ";0 1 32768",
    ";0 4 1",
    ";0 1 1 65535 1",
    ";1 4 1",
    ";0 4 32768",
];

/// A line of a table and a log's words.
fn said(table: &[usize], words: &str) -> Vec<u8> {
    format!("{};{words}", digits(table)).into_bytes()
}

/// The same for several logs.
fn each(table: &[usize], logs: &str) -> Vec<Vec<u8>> {
    logs.split(';').map(|words| said(table, words)).collect()
}

/// All tables of up to two flags, and all their rows twice.
fn small(dice: &mut Dice) -> Vec<Vec<u8>> {
    let over = |table: Vec<usize>| {
        let rows = [dice.order(table.len()), dice.order(table.len())].concat();
        said(&table, &words_of(0, rows.into_iter().map(|row| (row, 1 + dice.below(3)))))
    };
    (0..=2).flat_map(all_tables).map(over).collect()
}

/// Tables of three to ten flags: with a form, on some of the flags, and random.
fn tables(dice: &mut Dice) -> Vec<Vec<usize>> {
    let mut tables = Vec::new();
    for n in 3..=6 {
        tables.extend(tables_with_form(n, dice).into_iter().step_by(4));
        tables.extend([1, 2, 4, 6, 7].map(|eighths| dice.table(n, eighths)));
    }
    for n in 7..=10 {
        tables.push(table_from(n, |row| row.count_ones() as usize > n / 2));
        for kept in [2, n / 2, n - 1] {
            tables.push(recast(&dice.table(kept, 4), n, &dice.order(n)[..kept]));
        }
        tables.extend([1, 4, 7].map(|eighths| dice.table(n, eighths)));
    }
    tables
}

/// These tables, and logs of up to forty runs.
fn random(dice: &mut Dice) -> Vec<Vec<u8>> {
    let tables = tables(dice);
    let over = |table: &Vec<usize>| {
        let (count, most) = (1 + dice.below(40), dice.pick(&[1, 1, 2, 5, 500]));
        let runs = (0..count).map(|_| (dice.below(table.len()), 1 + dice.below(most)));
        said(table, &words_of(0, runs))
    };
    tables.iter().map(over).collect()
}

/// Logs of 32,767 snapshots in so many runs; the same with a byte more, and with a snapshot more.
fn longest(dice: &mut Dice) -> Vec<Vec<u8>> {
    let over = |(n, count): (usize, usize)| {
        let (table, all) = (dice.table(n, 4), LONGEST / 2);
        let run = |k: usize| (dice.below(1 << n), all * (k + 1) / count - all * k / count);
        let runs: Vec<(usize, usize)> = (0..count).map(run).collect();
        let longer = [&runs[..], &[(0, 1)]].concat();
        [(0, runs.clone()), (1, runs), (0, longer)]
            .map(|(odd, runs)| said(&table, &words_of(odd, runs)))
    };
    [(1, 8), (3, 20), (5, 33), (8, 40), (10, 40)].into_iter().flat_map(over).collect()
}

/// Row 2^n - 1; and row 2^n at the first snapshot, within the log, at the last, and at the last of
/// 32,767.
fn last_rows(dice: &mut Dice, n: usize) -> Vec<Vec<u8>> {
    let (rows, last) = (1 << n, (1 << n) - 1);
    let fit = format!("0 {last} 1 0 2 {last} 1");
    let unfit = format!("0 {rows} 1 0 2;0 0 2 {rows} 1 {last} 1;0 {last} 2 0 1 {rows} 1");
    each(&dice.table(n, 4), &format!("{fit};{unfit};0 {last} 32766 {rows} 1"))
}

/// Of `HIGH` those that are rows of n flags, and each of the others behind row 0.
fn high_bytes(dice: &mut Dice, n: usize) -> Vec<Vec<u8>> {
    let table = dice.table(n, 4);
    let (fit, others): (Vec<usize>, Vec<usize>) = HIGH.iter().partition(|&&row| row < 1 << n);
    let mut lines = vec![said(&table, &words_of(0, fit.into_iter().map(|row| (row, 1))))];
    lines.extend(others.into_iter().map(|row| said(&table, &words_of(0, [(0, 1), (row, 1)]))));
    lines
}

/// A table of two flags, one that is too long, one of another length and one with another
/// character, which those two may have too; behind each of them each of `BEHIND`.
fn pairs() -> Vec<Vec<u8>> {
    let mut tables = vec![line(4), line(1025), line(3)];
    tables.extend([(4, 2), (1025, 9), (3, 0)].map(|(length, place)| with(length, place, b'x')));
    let behind = |table: Vec<u8>| BEHIND.iter().map(move |log| [&table, log.as_bytes()].concat());
    tables.into_iter().flat_map(behind).collect()
}

/// Table lines of each length at its edge, and with other characters: before a log, and without.
fn table_lines() -> Vec<Vec<u8>> {
    let lengths = [0, 3, 5, 6, 7, 9, 511, 512, 513, 1000, 1023, 1024, 1025, 1030, 2048];
    let mut tables: Vec<Vec<u8>> = lengths.map(line).to_vec();
    for byte in *b"2/: \r\0\t\x7F\x80\xB1\xFF" {
        tables.extend([with(1, 0, byte), with(4, 3, byte)]);
    }
    tables.extend([with(512, 511, b'2'), with(1024, 0, b'2'), with(1024, 1023, b'\r')]);
    let mut lines: Vec<Vec<u8>> =
        tables.iter().map(|table| [table, &b";0 0 1"[..]].concat()).collect();
    lines.extend(tables.into_iter().filter(|table| table.len() < 10));
    lines.extend([512, 1024, 1025].map(line));
    lines
}

/// Tables of each number of flags are played, and every refusal that the program tests is met, and
/// no other.
fn cover(outputs: &[String]) {
    let (mut flags, mut refused) = (BTreeSet::new(), BTreeSet::new());
    for output in outputs {
        match output.trim_end().strip_prefix("refused ") {
            Some(number) => refused.insert(number.parse::<usize>().expect("a number")),
            None => flags.insert(output.lines().count() - 3),
        };
    }
    assert_eq!(refused, BTreeSet::from([1, 2, 3, 9, 16]));
    assert_eq!(flags, (0..=10).collect());
}

/// The lines of input, and what is printed for all of them.
pub fn vectors() -> (Vec<u8>, String) {
    let dice = &mut Dice(0x0B5E_55ED_CAFE_0014);
    let mut lines: Vec<Vec<u8>> = WORKED.iter().map(|(line, _)| written_out(line)).collect();
    lines.extend(small(dice));
    lines.extend(random(dice));
    lines.extend(longest(dice));
    (0..=10).for_each(|n| lines.extend(last_rows(dice, n)));
    (7..=10).for_each(|n| lines.extend(high_bytes(dice, n)));
    [0, 2, 6].iter().for_each(|&n| lines.extend(each(&dice.table(n, 4), LENGTHS)));
    [3, 4, 9, 10].iter().for_each(|&n| lines.extend(each(&dice.table(n, 4), LINE_ENDS)));
    lines.extend(pairs());
    lines.extend(table_lines());
    let lines = each_once(lines);
    let outputs: Vec<String> = lines.iter().map(|line| say(&input_of(line))).collect();
    cover(&outputs);
    let input: Vec<u8> = lines.iter().flat_map(|line| [line, &b"\n"[..]].concat()).collect();
    let output = outputs.concat();
    assert!(input.len() < MOST && output.len() < MOST, "{} and {}", input.len(), output.len());
    (input, output)
}
