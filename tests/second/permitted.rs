//! Rules whose files and lent cells have the records in sequence and in other permitted sequences.

use crate::damaged::{any, fit_map, largest, LONGEST};
use crate::file_edges::{given, reads};
use crate::file_lines::say_write;
use crate::files::{as_written, bytes_of, in_sequence, read, write, Filed};
use crate::sequence::{breaks, by_old_numbers, child_behind};
use crate::{recast, table_from, Dice, CELLS, WIDTH};
use std::collections::BTreeSet;

/// Where the records as they stand fall out of sequence.
pub fn breaks_of(filed: &Filed) -> BTreeSet<usize> {
    breaks(&filed.records, &filed.order)
}

/// A rule in a random permitted sequence that is not the one.
pub fn unsettled(dice: &mut Dice, rule: impl Fn(&mut Dice) -> Filed) -> Filed {
    loop {
        let filed = rule(dice);
        let other = Filed { records: dice.permitted(&filed.records), ..filed };
        if !breaks_of(&other).is_empty() {
            return other;
        }
    }
}

/// A rule of ten flags that depends on five.
fn on_five_of_ten(dice: &mut Dice) -> Filed {
    let table = recast(&dice.table(5, 4), 10, &dice.order(10)[..5]);
    Filed::collapsed(&table, dice.order(10), "five")
}

/// "at least 4 of 10": every level but the first and the last has several records.
fn four_of_ten(dice: &mut Dice) -> Filed {
    let table = table_from(10, |row| row.count_ones() >= 4);
    Filed::collapsed(&table, dice.order(10), "")
}

/// A rule's file in sequence, as it stands into cells for its records or for more, and with a child
/// behind its parent.
fn loads(dice: &mut Dice, filed: &Filed) -> Vec<String> {
    let (exact, map) = (WIDTH * filed.records.len(), fit_map(dice, filed));
    let mut lines = reads(&bytes_of(map, &in_sequence(filed)), &[exact]);
    let room = dice.pick(&[exact, exact, exact + WIDTH, 2 * exact, CELLS]);
    lines.extend(reads(&bytes_of(map, filed), &[room]));
    if let Some(records) = child_behind(&filed.records) {
        let file = bytes_of(map, &Filed { records, ..filed.clone() });
        assert_eq!(read(&file, exact), Err(6));
        lines.extend(reads(&file, &[exact]));
    }
    lines
}

/// A rule written as it stands, a sequence that "the writer keeps", read back, and written as it
/// was read: from then on its bytes stay.
fn saves(filed: &Filed) -> Vec<String> {
    let exact = WIDTH * filed.records.len();
    let save = |filed: &Filed| write(&given(filed), usize::MAX).expect("a diagram");
    let settled = read(&save(filed), exact).expect("its file");
    assert_eq!(as_written(&save(filed), exact).as_ref(), Ok(filed));
    assert_eq!(as_written(&save(&settled), exact).as_ref(), Ok(&settled));
    let say = |filed: &Filed| [say_write(&given(filed), save(filed).len()), format!("r {exact}")];
    [filed, &settled].into_iter().flat_map(say).collect()
}

/// Every rule is read, half of them are written too, but the longest.
pub fn sequences() -> Vec<String> {
    let mut dice = Dice(0x0B5E_55ED_CAFE_0011);
    let flags = [2, 3, 3, 4, 4, 5, 3, 4, 3, 3, 4, 4, 5, 6, 7];
    let mut rules = flags.map(|n| unsettled(&mut dice, |dice| any(dice, n))).to_vec();
    rules.extend([on_five_of_ten, four_of_ten].map(|rule| unsettled(&mut dice, rule)));
    let longest = unsettled(&mut dice, largest);
    let read = rules.iter().chain([&longest]);
    let mut lines: Vec<String> = read.flat_map(|filed| loads(&mut dice, filed)).collect();
    lines.extend(rules.iter().rev().step_by(2).flat_map(saves));
    lines
}

/// Of the files read, as their records stand, some are in sequence, and others out of it by level,
/// by low or by high alone, and by all three. Some are in sequence by the places of the order and
/// not by the flags' numbers; some are not brought there by the old numbers of nodes. In sequence
/// and out of it there are the longest, and short ones of ten flags.
pub fn cover(read: &[Filed]) {
    let several = read.iter().filter(|filed| filed.records.len() > 2);
    let (settled, others): (Vec<&Filed>, Vec<&Filed>) =
        several.partition(|filed| breaks_of(filed).is_empty());
    let met: BTreeSet<_> = others.iter().map(|filed| breaks_of(filed)).collect();
    for wanted in [&[0][..], &[1], &[2], &[0, 1, 2]] {
        assert!(met.contains(&wanted.iter().copied().collect()), "no file breaks at {wanted:?}");
    }
    let by_flags = |filed: &&Filed| Filed { order: (0..10).collect(), ..(*filed).clone() };
    assert!(settled.iter().any(|filed| !breaks_of(&by_flags(filed)).is_empty()));
    let by_old = |filed: &&Filed| by_old_numbers(&filed.records, &filed.order);
    assert!(others.iter().any(|filed| by_old(filed) != in_sequence(filed).records));
    for files in [settled, others] {
        let of_ten = files.iter().filter(|filed| filed.order.len() == 10);
        let lengths: Vec<usize> = of_ten.map(|filed| filed.records.len()).collect();
        assert!(lengths.contains(&LONGEST) && lengths.iter().any(|&length| length < 50));
    }
}
