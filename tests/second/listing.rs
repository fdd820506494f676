//! The listing program by the paper's words, and the lines of its vectors.

use crate::{all_tables, digits, draw_packed, each_once, numbers, or_refused, phrase, recast};
use crate::{refuse, shorter_tables, table_from, tables_with_form, Dice, Drawing};

/// The table of a line of up to ten flags; each byte is a row.
pub fn table_of(line: &[u8]) -> Result<Vec<usize>, usize> {
    refuse(&[
        (1, line.len() > 1024),
        (2, !line.len().is_power_of_two()),
        (3, line.iter().any(|byte| !b"01".contains(byte))),
    ])?;
    Ok(line.iter().map(|byte| usize::from(byte - b'0')).collect())
}

/// "It reads standard input up to the first byte 0A, or to the end".
pub fn list(input: &[u8]) -> Result<String, usize> {
    let table = table_of(input.split(|&byte| byte == b'\n').next().unwrap_or(input))?;
    refuse(&[(8, table.len() > 256)])?; // nine or ten flags
    let Drawing { order, nodes, flags, .. } = draw_packed(&table);
    let head = format!("flags {}\nnodes {nodes}\n{}\n", flags.len(), phrase("order", &order));
    let each = flags.iter().enumerate().map(|(flag, count)| format!("flag {flag} {count}\n"));
    Ok(head + &each.collect::<String>() + &phrase("yes", &[table.iter().sum()]))
}

/// What the program prints.
pub fn say(input: &[u8]) -> String {
    or_refused(list(input)) + "\n"
}

/// The tables that are listed, each once: the paper's, all of up to two flags, those with a form,
/// random ones and those of request 6.
pub fn tables() -> Vec<Vec<usize>> {
    let dice = &mut Dice(0x0B5E_55ED_CAFE_0010);
    let mut tables = vec![numbers("0000010100110111")];
    tables.extend((0..=2).flat_map(all_tables));
    (3..=6).for_each(|n| tables.extend(tables_with_form(n, dice)));
    tables.extend((0..160).map(|i| dice.table(3 + i % 4, [1, 2, 4, 6, 7][i % 5])));
    tables.extend(tables_with_form(7, dice).into_iter().step_by(2));
    tables.extend([1, 2, 3, 4, 4, 5, 6, 7].map(|eighths| dice.table(7, eighths)));
    tables.extend([0, 2, 4, 8, 9].map(|k| table_from(8, |row| row.count_ones() >= k)));
    tables.push(table_from(8, |row| row.count_ones() % 2 == 1));
    let pairs = table_from(8, |row| row & (row >> 1) & 0b0101_0101 != 0);
    tables.push(recast(&pairs, 8, &dice.order(8)));
    tables.extend([1, 4, 6, 7].map(|kept| recast(&dice.table(kept, 4), 8, &dice.order(8)[..kept])));
    tables.extend([1, 4, 4, 6].map(|eighths| dice.table(8, eighths)));
    tables.extend(shorter_tables());
    each_once(tables)
}

/// A line of so many characters.
pub fn line(length: usize) -> Vec<u8> {
    b"0110".iter().copied().cycle().take(length).collect()
}

/// The same with another byte at a place.
pub fn with(length: usize, place: usize, byte: u8) -> Vec<u8> {
    let mut line = line(length);
    line[place] = byte;
    line
}

/// Each refusal on both sides of its edge and ahead of the next: so many characters, and other
/// characters where the number is a power of two and where it is not.
fn refused() -> Vec<Vec<u8>> {
    let few = [0, 3, 5, 6, 7, 9, 127, 129, 255, 256, 257];
    let many = [511, 512, 513, 1023, 1024, 1025, 2048];
    let mut lines: Vec<Vec<u8>> = few.into_iter().chain(many).map(line).collect();
    for byte in *b"2/:o \r\0\x01\t\x0B\x7F\x80\xB0\xB1\xFF" {
        lines.extend([with(1, 0, byte), with(4, 2, byte), with(8, 7, byte)]);
    }
    lines.extend([0, 128, 255].map(|place| with(256, place, b'2')));
    for length in [2, 3, 5, 100, 129, 257, 512, 513, 1024, 1025] {
        lines.extend([with(length, 0, b'2'), with(length, length - 1, b'\r')]);
    }
    lines
}

/// The lines of input, each that of one run, and what is printed for all of them.
pub fn vectors() -> (Vec<u8>, String) {
    let mut lines: Vec<Vec<u8>> = tables().iter().map(|table| digits(table).into_bytes()).collect();
    lines.extend(refused());
    let input: Vec<u8> = lines.iter().flat_map(|line| [line, &b"\n"[..]].concat()).collect();
    (input, lines.iter().map(|line| say(line)).collect())
}
