//! The lists of store calls that replay logs: logs of each length at its edge, each refusal at the
//! first snapshot, within the log and at the last, two faults at once, and all rows that can
//! happen.

use crate::lists::{played, JOINED, PASSED, PROVOKED};
use crate::log::words_of;
use crate::scribe::Scribe;
use crate::{sized, Dice, CELLS, WIDTH};

/// Lent cells, in the words of `sized`, and calls.
const LISTS: &[(&str, &str)] = &[
    // Flag 0 and flag 1: no snapshots, one and two; answers that change at each, never, and at the
    // last; 32,767 snapshots. Rules are made and tabulated between, up to the last record.
    (
        "4r",
        "o 2 01 0;f 0;f 1;j 1 @1 @2;r @3 0;r @3 0 0 1;r @3 0 3 1;r @3 0 0 1 3 1;r @3 0 3 1 1 1;\
         r @3 0 3 2;r @3 0 1 1 2 1 3 1;t @3 4;r @3 0 3 1 0 1 3 1 1 1 3 1 2 1 3 1;\
         r @3 0 0 2 1 3 2 4 0 1;r @3 0 3 5;r @3 0 0 1 2 3 1 2 3 1;r @3 0 3 3 2 1;j 7 @1 @2;\
         r @17 0 0 1 1 2 2 1 3 1;t @3 4;t @17 4;r @3 0 3 32767;r @3 0 2 32766 3 1;\
         r @17 0 3 16383 0 1 2 16383;j 6 @1 @2;r 0 0 3 2 1 1;r 1 0 3 2 1 1;r 2 0 1 1 2 1;\
         r 5 0 1 2;w @17 2;j 14 @3 @17;t 5 4",
    ),
    // The same rule: rows that are not below 4, some with the bytes of others; odd lengths, with
    // such rows too; nodes that are too high, ahead of both.
    (
        "3r",
        "o 2 01 0;f 0;f 1;j 1 @1 @2;r @3 0 4 1 3 2;r @3 0 3 2 4 1 0 2;r @3 0 3 4 4 1;\
         r @3 0 0 32766 4 1;r @3 0 256 1;r @3 0 1 1 768 1;r @3 0 65535 1;r @3 1;r @3 1 3 1;\
         r @3 1 3 32767;r @3 1 4 1;r @3 1 65535 2;t @3 4;r 5 0;r 5 0 3 1;r 5 1;r 5 0 4 1;\
         r 65535 1 4 1;r 4 0 3 1 0 1;j 7 @1 @2;r @3 0 3 2",
    ),
    // Flags 0 and 1 never both set: forbidden rows, and rows not below 16 ahead of them or behind;
    // rows that are both, under this pass rule and under "no"; then as above.
    (
        "20r",
        "o 4 2013 0;f 0;f 1;j 14 @1 @2;f 2;f 3;j 1 @1 @4;c @5 @6 @2;q @7 @3 0;\
         q @7 @3 0 2 1 5 1 8 2 13 1 1 1;q @7 @3 0 3 1 2 2;q @7 @3 0 2 2 7 1 5 2;q @7 @3 0 2 5 15 1;\
         q @7 @3 0 2 32766 11 1;q @7 @3 0 13 32766 4 1;q @7 @3 0 2 1 3 1 16 1;\
         q @7 @3 0 2 1 16 1 3 1;q @7 @3 0 19 1;q @7 @3 0 2 32766 31 1;q @7 0 0 16 1;\
         q @7 0 0 0 1;q @7 0 0;q @7 1 0 3 2;t @7 16;q @7 @3 1;q @7 @3 1 3 1;q @7 @3 1 16 1;\
         q @7 14 0;q @7 65535 0 2 1;q 65535 @3 0 3 1;q 65535 65535 0 16 1;q @7 65535 1 16 1;\
         q 65535 0 1 3 1;r @7 0 3 2 15 1;j 6 @7 @3",
    ),
    // Parity: a node within other rules, as rule and as pass rule, between calls that make rules.
    (
        "10r",
        "o 3 012 0;f 0;r @1 0 1 2 6 1;f 1;r @1 0 7 1 2 1;j 6 @1 @3;f 2;q @5 @1 0 7 1 1 2;\
         j 6 @5 @6;r @8 0 0 1 1 1 3 1 7 1 7 1;x @5 0 1;r @10 0 0 1 2 2 5 1;\
         q @8 @10 0 0 1 1 1 4 1 5 1;q @8 @10 0 5 1 2 1;q @10 @8 0 1 1 2 1 4 1 7 1;q @10 @8 0 0 1;\
         x @8 0 1;r @16 0 6 2 2 1 4 1 0 1;t @8 8;x @16 1 0;q @19 @16 0 0 1 6 1;j 1 @1 @3;t @10 8",
    ),
    // Nine flags and eight: rows with a high byte, and rows not below 2^n that would be with their
    // bytes exchanged. The last open leaves no tables to be told.
    (
        "6r",
        "o 9 582071364 0;f 8;f 0;j 6 @1 @2;r @3 0 0 1 1 1 256 1 257 1 511 2;\
         r @1 0 1 1 256 2 255 1 511 1;r @3 0 512 1;r @3 0 511 1 512 1;r @3 0 1023 1;\
         r @3 0 1024 1;q @3 @1 0 256 2 257 1;q @3 @1 0 256 1 255 1;q @3 @1 0 65535 1;\
         o 8 76543210 0;f 7;f 0;r @14 0 255 2 127 1 128 1;r @15 0 256 1;r @15 0 1 1 511 1;\
         q @14 @15 0 129 1 1 1 255 1;o 0 - 0",
    ),
    // No flags, in no cells: row 0 alone.
    (
        "0",
        "r 1 0 0 3;r 0 0;o 0 - 5;r 1 0 0 3;r 0 0 0 2;r 1 0 0 32767;r 1 0 1 1;r 1 0 0 2 256 1;\
         r 1 1 0 1;r 2 0 0 1;q 1 1 0 0 2;q 1 0 0 0 1;q 1 0 0 1 1;q 0 1 0 0 2;q 1 2 1 1 1",
    ),
    // Refused for the state or the cells, ahead of whatever else.
    (
        "2r",
        "r 1 0 0 1;r 1 0;q 1 0 0 0 1;q 9 9 1 9 1;o 2 01 7;r 1 0 3 1;o 2 00 2;r 1 0 3 1;\
         q 9 9 1 9 1;o 11 01 3;r 1 0;q 9 9 1 9 1;o 2 10 9;f 0;q 1 @13 0 1 2",
    ),
    (
        "2r+1",
        "r 1 0 0 1;o 1 0 4;q 9 9 1 9 1;r 1 1;o 1 1 4;r 1 0 0 1;q 1 0 1 9 1;o 255 1 4;r 9 1 9 1",
    ),
    ("all+1r", "o 1 0 0;r 1 0;q 9 1 0 9 1"),
];

/// Logs through the ten flags of `JOINED`, in which row 316 asks all of them: the rows that differ
/// from it in one flag; rows that are others with their bytes exchanged; rows not below 1,024; pass
/// rules that ask one flag for a rule that asks many, and the other way round. The last open leaves
/// no tables to be told.
const TEN: &str = "r @19 0 308 1 318 1 300 1 317 1 284 1 828 1 312 1 380 1 60 1 444 1 316 1;\
    r @19 0 316 32766 444 1;r @2 0 258 2 513 1 3 1 768 1;r @8 0 259 1 769 1 512 1 2 1 1023 1;\
    r @13 0 0 1 256 1 511 1 512 1 1023 1;r @19 0 1024 1;r @19 0 1023 2 1024 1;r @19 0 1280 1;\
    r @19 0 65535 1;q @19 @17 0 436 1 444 2 318 1;q @19 @17 0 436 1 308 1;\
    q @1 @19 0 318 1 444 1 828 1;q @19 @1 0 128 2 444 3 1023 1;q @19 @1 0 444 1 316 1 1024 1;\
    q @19 @1 0 444 1 1024 1 316 1;q @18 @2 0 259 1 256 1 264 1 1023 1;\
    q @19 @1 0 129 32766 1 1;o 0 - 0";

/// The words of a log that has a snapshot of each of these rows.
fn once(rows: impl IntoIterator<Item = usize>) -> String {
    words_of(0, rows.into_iter().map(|row| (row, 1)))
}

/// A rule over all rows.
fn say_all(list: &mut Scribe, rule: &str) {
    let rows = list.dice.order(1 << list.n());
    list.say(&format!("r {rule} {}", once(rows)));
}

/// A rule over the rows, up to sixteen, that the pass rule of a call allows.
fn say_allowed(list: &mut Scribe, rule: &str, call: usize) {
    let allowed = list.session.rule_of_call(call);
    let rows = list.dice.order(1 << list.n()).into_iter();
    let rows = once(rows.filter(|row| allowed.contains(row)).take(16));
    list.say(&format!("q {rule} @{call} {rows}"));
}

/// Each rule under its pass rule; without one, where that is an end node.
fn over_rows(dice: &mut Dice, made: &str, pairs: &str) -> Vec<String> {
    let mut list = played(dice, 20 * WIDTH, made.split(';'));
    for (rule, pass) in pairs.split(';').filter_map(|pair| pair.split_once(' ')) {
        match pass.strip_prefix('@') {
            None => say_all(&mut list, rule),
            Some(call) => say_allowed(&mut list, rule, call.parse().expect("a call")),
        }
    }
    list.end()
}

/// Ten flags and so many records that nodes are above 255. The last open leaves no tables to be
/// told.
fn large() -> Vec<String> {
    let mut dice = Dice(0x0B5E_55ED_CAFE_0015);
    let mut list = Scribe::new(&mut dice, CELLS);
    list.say_open("10 7093482615 0");
    (0..10).for_each(|i| drop(list.say(&format!("f {i}"))));
    while list.used() < 400 {
        list.grow(8, CELLS / WIDTH - list.used());
    }
    for call in list.session.rules().into_iter().rev().take(2) {
        say_allowed(&mut list, &format!("@{}", call - 1), call);
        say_allowed(&mut list, "@1", call);
    }
    list.say_open("0 - 0");
    list.end()
}

/// All of these.
pub fn lists(dice: &mut Dice) -> Vec<Vec<String>> {
    let mut lists = Vec::new();
    for (cells, calls) in LISTS {
        let cells = sized(cells).parse().expect("a number of cells");
        lists.push(played(dice, cells, calls.split(';')).end());
    }
    lists.push(played(dice, 19 * WIDTH, format!("{JOINED};{TEN}").split(';')).end());
    for (n, order, calls, pairs) in PASSED.iter().chain(PROVOKED) {
        lists.push(over_rows(dice, &format!("o {n} {order} 0;{calls}"), pairs));
    }
    lists.push(large());
    lists
}
