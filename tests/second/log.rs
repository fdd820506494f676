//! Rig logs (document 02, request 9): their bytes and snapshots, the tally of a pass over them, and
//! the program that plays one through a table. An input of the program is written on a line:
//!
//!     TABLE;ODD ROW TIMES ROW TIMES ..
//!                       these characters, a line end and the log: so many snapshots of each row,
//!                       and where ODD is 1 one further byte, a 7
//!     TABLE             these characters, without a line end and so without a log
//!
//! The log's words stand one blank apart. The output for a line is what the program prints.

use crate::listing::table_of;
use crate::{collapse, count, digits, flag_count, flags_asked, numbers, or_refused, refuse};
use std::collections::{BTreeMap, BTreeSet};

/// "log of odd length or above 65,534 bytes"
pub const LONGEST: usize = 65_534;

/// A walk's answer, and the flags that it asks.
pub type Walked = (usize, Vec<usize>);

/// Lines, tables being written as for `numbers`, and what is printed for them, the lines parted by
/// blanks.
pub const WORKED: &[(&str, &str)] = &[
    // Flag 0 and flag 1: where flag 0 is 0, flag 1 is not asked.
    ("0001;0 1 1 2 1 3 1", "3 1 1 3 2"),
    ("0001;0 3 1 0 1 3 1 1 1 3 1", "5 3 4 5 4"),
    ("0001;0 2 32766 3 1", "32767 1 1 32767 1"),
    // "An empty log tallies zeros", with a line end and without.
    ("0001;0", "0 0 0 0 0"),
    ("0001", "0 0 0 0 0"),
    // No flags. "The first snapshot isn't a change."
    ("1;0 0 5", "5 5 0"),
    ("0;0 0 1", "1 0 0"),
    ("1", "0 0 0"),
    ("1;0 0 1 1 1", "refused 9"),
    // One flag, and its opposite.
    ("01;0 1 1 0 2 1 3", "6 4 2 6"),
    ("10;0 1 1 0 2 1 3", "6 2 2 6"),
    // Two of three flags: the third is asked where the first two differ.
    ("00010111;0 0 2 7 1 2 3 5 1", "7 2 3 7 7 4"),
    // Document 002's x'yz' + xz: y is asked where x is 0, z where x is 1 or y is.
    ("00100101;0 0 1 2 1 6 1 5 1 3 1 5 1", "6 3 5 6 3 5"),
    // Flag 2 of four, and flag 1 of ten: rows 10, 258 and 513 are bytes 0A 00, 02 01 and 01 02.
    ("00001111*2;0 10 2 12 1 10 1", "4 1 2 0 0 4 0"),
    ("0011*256;0 258 2 513 1 10 1", "4 3 2 0 4 0 0 0 0 0 0 0 0"),
    // The refusals, each at its edge and ahead of those behind it.
    ("0*1025;1 1024 1", "refused 1"),
    ("2*1025", "refused 1"),
    ("0*1024;0 1023 2", "2 0 0 0 0 0 0 0 0 0 0 0 0"),
    ("0*1023;1 1024 1", "refused 2"),
    ("222;1 8 1", "refused 2"),
    (";0 0 1", "refused 2"),
    ("", "refused 2"),
    ("0002;1 4 1", "refused 3"),
    ("0001;1", "refused 16"),
    ("0001;1 4 1", "refused 16"),
    ("0001;0 3 32767", "32767 32767 0 32767 32767"),
    ("0001;1 3 32767", "refused 16"),
    ("0001;0 3 32768", "refused 16"),
    ("0001;0 4 32768", "refused 16"),
    ("0001;0 3 2 4 1", "refused 9"),
    ("0001;0 3 32766 4 1", "refused 9"),
    ("0001;0 256 1", "refused 9"),
];

/// The log of the words `ODD ROW TIMES ROW TIMES ..`.
pub fn log_of(words: &[&str]) -> Vec<u8> {
    let numbers: Vec<u16> = words.iter().map(|word| word.parse().expect("a number")).collect();
    let (odd, runs) = numbers.split_first().expect("ODD");
    let run = |run: &[u16]| run[0].to_le_bytes().repeat(usize::from(run[1]));
    runs.chunks(2).flat_map(run).chain((0..*odd).map(|_| 7)).collect()
}

/// The words of a log: its rows, and how many snapshots of each stand behind the other.
pub fn words_of(odd: usize, runs: impl IntoIterator<Item = (usize, usize)>) -> String {
    runs.into_iter().fold(odd.to_string(), |words, (row, times)| format!("{words} {row} {times}"))
}

pub fn is_unfit(log: &[u8]) -> bool {
    log.len() % 2 == 1 || log.len() > LONGEST
}

/// "A log is snapshots of two bytes each, low byte first, the row number."
pub fn snapshots(log: &[u8]) -> Vec<usize> {
    log.chunks(2).map(|bytes| usize::from(bytes[0]) + 256 * usize::from(bytes[1])).collect()
}

/// "a row not below 2^n gives 9, a forbidden one 14, the earliest in the log first": forbidden are
/// those for which the pass rule's table, if there is one, says no.
pub fn test(rows: &[usize], count: usize, pass: Option<&[usize]>) -> Result<(), usize> {
    let is_forbidden = |row: usize| pass.map_or(false, |pass| pass.get(row) == Some(&0));
    rows.iter().try_for_each(|&row| refuse(&[(9, row >= count), (14, is_forbidden(row))]))
}

/// Each row that the snapshots have is walked once.
fn walked(rows: &[usize], walk: impl Fn(usize) -> Walked) -> BTreeMap<usize, Walked> {
    let each: BTreeSet<usize> = rows.iter().copied().collect();
    each.into_iter().map(|row| (row, walk(row))).collect()
}

/// "snapshots played, yes answers, changes of answer, and for each of the n flags, flag 0 first,
/// how often it was asked", by "a plain pass over the log"; of ten flags those from n on are never
/// asked.
pub fn tally(rows: &[usize], walk: impl Fn(usize) -> Walked) -> Vec<usize> {
    let walks = walked(rows, walk);
    let answers: Vec<usize> = rows.iter().map(|row| walks[row].0).collect();
    let yes = answers.iter().filter(|&&answer| answer == 1).count();
    let changes = answers.windows(2).filter(|two| two[0] != two[1]).count();
    let asked = |v: usize| rows.iter().filter(|row| walks[row].1.contains(&v)).count();
    [rows.len(), yes, changes].into_iter().chain((0..10).map(asked)).collect()
}

/// The same numbers by "one tally record that each snapshot updates".
pub fn updated(rows: &[usize], walk: impl Fn(usize) -> Walked) -> Vec<usize> {
    let walks = walked(rows, walk);
    let (mut tally, mut last) = (vec![0; 3 + 10], None);
    for row in rows {
        let (answer, asked) = &walks[row];
        tally[0] += 1;
        tally[1] += answer;
        tally[2] += usize::from(last.map_or(false, |last| last != answer));
        asked.iter().for_each(|v| tally[3 + v] += 1);
        last = Some(answer);
    }
    tally
}

/// "a table line as for the listing but up to ten flags, drawn in the rising order, then the log":
/// all bytes behind the first 0A. Walks of the drawing are tallied, and beside it the table alone.
fn play(input: &[u8]) -> Result<Vec<usize>, usize> {
    let mut parts = input.splitn(2, |&byte| byte == b'\n');
    let [line, log] = [(); 2].map(|_| parts.next().unwrap_or_default());
    let table = table_of(line)?;
    refuse(&[(16, is_unfit(log))])?;
    let rows = snapshots(log);
    test(&rows, table.len(), None)?;
    let rising: Vec<usize> = (0..flag_count(&table)).collect();
    let diagram = collapse(&table, &rising);
    let tally = tally(&rows, |row| (table[row], diagram.walk(row).1));
    let by_table = |row: usize| (table[row], flags_asked(&table, &rising, row));
    assert_eq!(tally, updated(&rows, by_table), "tallied otherwise");
    Ok(tally[..3 + rising.len()].to_vec())
}

/// "It prints the tally's numbers one a line"; "the program prints refusals as the listing does".
pub fn say(input: &[u8]) -> String {
    let lines = |tally: Vec<usize>| tally.iter().map(usize::to_string).collect::<Vec<_>>();
    or_refused(play(input).map(|tally| lines(tally).join("\n"))) + "\n"
}

/// The input that a line stands for.
pub fn input_of(line: &[u8]) -> Vec<u8> {
    let mut parts = line.splitn(2, |&byte| byte == b';');
    let table = parts.next().unwrap_or_default();
    let log = parts.next().map(|words| {
        let words = std::str::from_utf8(words).expect("words");
        [b"\n", &log_of(&words.split(' ').collect::<Vec<_>>())[..]].concat()
    });
    [table, &log.unwrap_or_default()].concat()
}

/// A line of `WORKED` with its table written out.
pub fn written_out(line: &str) -> Vec<u8> {
    let (table, words) = line.split_at(line.find(';').unwrap_or(line.len()));
    (digits(&numbers(table)) + words).into_bytes()
}

/// The log of all rows, each once: it has as many yes answers as the table, as many changes as it
/// has borders, and its walks ask as many flags as are counted without drawing.
fn by_all_rows(table: &[usize]) -> bool {
    let rising: Vec<usize> = (0..flag_count(table)).collect();
    let words = words_of(0, (0..table.len()).map(|row| (row, 1)));
    let output = say(&input_of(format!("{};{words}", digits(table)).as_bytes()));
    let tally: Vec<usize> = output.lines().filter_map(|line| line.parse().ok()).collect();
    let borders = (1..table.len()).filter(|&row| table[row - 1] != table[row]).count();
    tally[..3] == [table.len(), table.iter().sum(), borders]
        && tally[3..].len() == rising.len()
        && tally[3..].iter().sum::<usize>() == count(table, &rising).1
}

/// What doesn't agree; tables are tried up to three flags.
pub fn faults() -> Vec<String> {
    let mut faults = Vec::new();
    for (line, expected) in WORKED {
        let found = say(&input_of(&written_out(line))).trim_end().replace('\n', " ");
        if found != *expected {
            faults.push(format!("{line}: expected {expected}, found {found}"));
        }
    }
    let differ = (0..=3).flat_map(crate::all_tables).filter(|table| !by_all_rows(table));
    faults.extend(differ.map(|table| format!("the tally of all rows of {}", digits(&table))));
    faults
}
