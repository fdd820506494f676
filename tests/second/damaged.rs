//! The files and writes of the vectors: those at the edges, good files that are damaged, rules that
//! are written and read back, and those in several sequences.

use crate::file_edges::{edges, given, reads};
use crate::file_lines::{answer, play, say_write};
use crate::files::{as_written, bytes_of, in_sequence, read, write, Filed};
use crate::{permitted, recast, table_from, Dice, CELLS, WIDTH};
use std::collections::BTreeSet;

/// The most records that a diagram of ten flags has: those of the first seven flags asked, one that
/// asks the eighth for each way through these, and all 12 and 2 that there are for the last two.
pub const LONGEST: usize = 127 + 128 + 12 + 2;

/// The rows of the refusal table that the reader tests, and the writer.
const TESTED: [&[usize]; 2] = [&[1, 4, 5, 6, 10, 11, 12, 13], &[1, 4, 5, 6, 7, 10, 13]];

impl Dice {
    /// The drawing of a random table under an order, with records of a number within bounds.
    pub fn filed(&mut self, order: Vec<usize>, label: &str, least: usize, most: usize) -> Filed {
        loop {
            let eighths = 1 + self.below(7);
            let table = self.table(order.len(), eighths);
            let filed = Filed::collapsed(&table, order.clone(), label);
            if (least..=most).contains(&filed.records.len()) {
                return filed;
            }
        }
    }

    fn label(&mut self) -> String {
        let length = [0, 0, 0, 1, 2, 7][self.below(6)];
        (0..length).map(|_| char::from(0x20 + self.below(0x5F) as u8)).collect()
    }
}

/// Rules and the maps of their files, which are damaged: no flags both ways, one flag, three flags
/// under an order that does not rise and with a label, five flags; some without bits 0 or 1.
fn goods(dice: &mut Dice) -> Vec<(usize, Filed)> {
    let none = |root: usize, label: &str| {
        let (order, records) = (vec![], vec![]);
        Filed { order, label: label.into(), records, root }
    };
    let one = Filed { order: vec![0], label: vec![], records: vec![[0, 0, 1]], root: 2 };
    vec![
        (0b00011, none(0, "")),
        (0b10011, none(1, "")),
        (0b01011, one),
        (0b01111, dice.filed(vec![2, 0, 1], "Ab", 4, 5)),
        (0b01111, dice.filed(vec![3, 1, 4, 0, 2], "knee ~", 10, 11)),
        (0b01001, dice.filed(vec![0, 1, 2, 3], "", 6, 7)),
        (0b10110, none(1, "yes")),
        (0b00100, none(0, " ")),
    ]
}

/// A file with each byte changed, cut at each length and with one byte appended, into cells that
/// hold its records exactly, into more of them, and into those for one record fewer.
fn damaged(map: usize, filed: &Filed) -> Vec<String> {
    let (file, exact) = (bytes_of(map, filed), WIDTH * filed.records.len());
    assert_eq!(read(&file, exact), Ok(in_sequence(filed)));
    let mut lines = reads(&file, &[exact, exact + 1, exact + WIDTH, CELLS]);
    let mut say = |cells: usize, changes: &[&str]| {
        let call = |change: &&str| change.replace('%', &cells.to_string());
        lines.extend(changes.iter().map(call));
    };
    say(exact, &["e % 1", "e % 255", "e % 128", "e % 32", "s % 0", "s % 255", "c %", "a % 0"]);
    say(CELLS, &["e % 1", "e % 255", "e % 2", "s % 1", "s % 127", "c %", "a % 255"]);
    if exact > 0 {
        say(exact - WIDTH, &["r %", "e % 1", "s % 0", "c %", "a % 65"]);
    }
    lines
}

/// Each value of each byte of a file, up to a place.
fn all_values(map: usize, filed: &Filed, most: usize) -> Vec<String> {
    let (file, cells) = (bytes_of(map, filed), WIDTH * filed.records.len());
    let places = 0..file.len().min(most);
    let each = places.map(|place| format!("v {cells} {place}"));
    reads(&file, &[]).into_iter().chain(each).collect()
}

/// A rule of ten flags with as many nodes as there can be, so that counts and nodes take two bytes.
pub fn largest(dice: &mut Dice) -> Filed {
    let (order, parts) = (dice.order(10), dice.order(256));
    let asks =
        |part: &usize| [0, 2, 4, 6].iter().any(|low| (part >> low) & 1 != (part >> low >> 1) & 1);
    let parts: Vec<usize> = parts.into_iter().filter(asks).collect();
    let table = table_from(10, |row| (parts[row % 128] >> (row / 128)) & 1 == 1);
    let filed = Filed::collapsed(&recast(&table, 10, &order), order, "ten");
    assert_eq!(filed.records.len(), LONGEST);
    filed
}

/// A random rule of n flags.
pub fn any(dice: &mut Dice, n: usize) -> Filed {
    let (order, label) = (dice.order(n), dice.label());
    dice.filed(order, &label, 0, CELLS / WIDTH)
}

/// A rule that is written, read back, read into cells for one record fewer, and written into one
/// byte fewer.
fn back(dice: &mut Dice, filed: &Filed) -> Vec<String> {
    let (given, exact) = (given(filed), WIDTH * filed.records.len());
    let file = write(&given, usize::MAX).expect("a diagram");
    assert_eq!(read(&file, exact), Ok(in_sequence(filed)));
    let bytes = file.len() + dice.below(3);
    let mut lines = vec![say_write(&given, bytes), format!("r {exact}")];
    if exact > 0 {
        lines.push(format!("r {}", exact - WIDTH));
    }
    lines.extend(Some(say_write(&given, file.len() - 1)).filter(|_| dice.one_in(4)));
    lines
}

/// The map of a rule's file. Bits 0 and 1 may stand without need.
pub fn fit_map(dice: &mut Dice, filed: &Filed) -> usize {
    let Filed { order, label, records, root } = filed;
    let is_rising = order.iter().copied().eq(0..order.len());
    let needed =
        [!order.is_empty(), !is_rising, !label.is_empty(), !records.is_empty(), *root == 1];
    let free = dice.below(4);
    (0..5).filter(|&bit| needed[bit] || (free >> bit) & 1 == 1).map(|bit| 1 << bit).sum()
}

/// A file of up to three flags, with up to three bytes changed, new or gone.
fn random(dice: &mut Dice) -> Vec<String> {
    let n = dice.below(4);
    let filed = any(dice, n);
    let mut file = bytes_of(fit_map(dice, &filed), &filed);
    for _ in 0..dice.below(4) {
        let (at, byte) = (dice.below(file.len()), dice.below(12) as u8);
        match dice.below(3) {
            0 => file[at] = byte,
            1 => file.insert(at, byte),
            _ => file.truncate(file.len() - usize::from(file.len() > 1)),
        }
    }
    let room = filed.records.len() + dice.below(3);
    reads(&file, &[WIDTH * room.saturating_sub(1)])
}

/// The reader and the writer meet every refusal that they test, and no other; files stand in
/// sequence and out of it.
fn cover(lines: &[String]) {
    let mut met = [BTreeSet::new(), BTreeSet::new()];
    let (mut file, mut read) = (Vec::new(), Vec::new());
    for line in lines {
        let output = answer(&mut file, line);
        let cells = line.strip_prefix("r ").and_then(|cells| cells.parse().ok());
        read.extend(cells.and_then(|cells| as_written(&file, cells).ok()));
        let refused = output.lines().filter_map(|line| line.strip_prefix("refused "));
        let numbers = refused.filter_map(|rest| rest.split(' ').next()?.parse::<usize>().ok());
        met[usize::from(line.starts_with('w'))].extend(numbers);
    }
    assert_eq!(met, TESTED.map(|rows| rows.iter().copied().collect()));
    permitted::cover(&read);
}

/// The input for the test program, and its output.
pub fn vectors() -> (String, String) {
    let mut dice = Dice(0x0B5E_55ED_CAFE_0009);
    let goods = goods(&mut dice);
    let [one, longer] = [&goods[2], &goods[3]];
    let mut lines = edges(&longer.1);
    goods.iter().for_each(|(map, filed)| lines.extend(damaged(*map, filed)));
    lines.extend(all_values(one.0, &one.1, usize::MAX));
    lines.extend(all_values(longer.0, &longer.1, 10));
    let mut rules: Vec<Filed> = (0..42).map(|i| any(&mut dice, i % 7)).collect();
    rules.extend([any(&mut dice, 8), largest(&mut dice)]);
    rules.iter().for_each(|filed| lines.extend(back(&mut dice, filed)));
    (0..150).for_each(|_| lines.extend(random(&mut dice)));
    lines.extend(permitted::sequences());
    let input: String = lines.iter().map(|line| format!("{line}\n")).collect();
    cover(&lines);
    let output = play(&input);
    (input, output)
}
