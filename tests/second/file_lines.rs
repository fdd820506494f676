//! Rule files that are read and written, a line a call or several, and the answer to each call.
//! Words stand one blank apart.
//!
//!     f FILE            the file is these bytes
//!     r CELLS           reads it into so many lent cells, 7 in each
//!     v CELLS PLACE     the same with each value of the byte at a place, 0 first
//!     e CELLS ADD       with ADD added, modulo 256, to each byte of the file in turn
//!     s CELLS BYTE      with each byte of the file in turn set to BYTE
//!     c CELLS           with the file cut to each length below its own, 0 first
//!     a CELLS BYTE      with BYTE appended
//!     w N ORDER USED ROOT BYTES LABEL CELLS CELL CELL ..
//!                       writes into so many lent bytes, 85 in each; of the lent cells those that
//!                       are not written here are 0. The file is then what was written, or empty
//!
//! FILE, ORDER and LABEL are two digits to a byte, 0 to 9 and a to f, or `-` for no bytes; what is
//! not written of an order's ten places is 0. Every other number is in base ten.
//!
//! A line of output for each call, PLACES being the order's ten:
//!
//!     n N order PLACES records COUNT root NODE label LABEL cells CELL CELL .. rest 0
//!     bytes LENGTH FILE rest kept
//!     refused K kept
//!
//! The cells are those of the records in sequence; `rest 0` says that the others are 0, `rest kept`
//! that the bytes past the file are as lent. Of a refused file `kept` says that order and label
//! come back as zeros and empty and the cells are as lent; of a refused write that the bytes are.

use crate::files::{read, write, Filed, Given};
use crate::{digits, or_refused, phrase, sized};

/// Input, with the words of `sized` for numbers of cells, and what is printed for it, the lines
/// parted by `;`.
pub const WORKED: &[(&str, &str)] = &[
    // The paper's settled files. The first: bits 0, 1 and 3; n 1; flag 0 asked first; one record,
    // which asks flag 0 and goes to node 0 and node 1.
    (
        "f 0b010001000000000100;r 1r;r 2r;r all;r 0;r 1r+1;r all+1r",
        "n 1 order 0000000000 records 1 root 2 label - cells 0 0 1 rest 0;\
         n 1 order 0000000000 records 1 root 2 label - cells 0 0 1 rest 0;\
         n 1 order 0000000000 records 1 root 2 label - cells 0 0 1 rest 0;\
         refused 10 kept;refused 5 kept;refused 5 kept",
    ),
    (
        "f 1300;r 0;f 10;r 0",
        "n 0 order 0000000000 records 0 root 1 label - cells rest 0;\
         n 0 order 0000000000 records 0 root 1 label - cells rest 0",
    ),
    // The writer gives the first two back; `10` it writes with bits 0 and 1.
    (
        "w 1 00 1 2 10 - 1r 0 0 1;r 1r;w 0 - 0 1 3 - 0;w 0 - 0 1 1 - 0;r 0",
        "bytes 10 0b010001000000000100 rest kept;\
         n 1 order 0000000000 records 1 root 2 label - cells 0 0 1 rest 0;\
         bytes 2 1300 rest kept;refused 10 kept;refused 11 kept",
    ),
    // Flag 0 and flag 1, flag 1 asked first, with a label; then each of the writer's refusals.
    (
        "w 2 0100 2 3 20 417e 2r 0 0 1 1 0 2;r 2r;r 1r;w 11 0100 2 3 19 417e 2r 0 0 1 1 0 2;\
         w 2 0101 2 3 19 417e 2r 0 0 1 1 0 2;w 2 0100 2 3 19 417e 2r+1 0 0 1 1 0 2;\
         w 2 0100 2 2 19 417e 2r 0 0 1 1 0 2;w 2 0001 2 3 19 417e 2r 0 0 1 1 0 2;\
         w 2 0100 2 4 19 417e 2r 0 0 1 1 0 2;w 2 0100 2 3 19 417f 2r 0 0 1 1 0 2;\
         w 2 0100 2 3 18 417e 2r 0 0 1 1 0 2",
        "bytes 19 0f02010002417e020000000001000100000200 rest kept;\
         n 2 order 1000000000 records 2 root 3 label 417e cells 0 0 1 1 0 2 rest 0;\
         refused 10 kept;refused 1 kept;refused 4 kept;refused 5 kept;refused 6 kept;\
         refused 6 kept;refused 7 kept;refused 13 kept;refused 10 kept",
    ),
    // Fields left out, a label, and what is cut off or too much: `00` has no field at all.
    (
        "f 00;r 0;a 0 65;f 050202417e;r 1r;c 1r;a 1r 0",
        "n 0 order 0000000000 records 0 root 0 label - cells rest 0;refused 11 kept;\
         n 2 order 0100000000 records 0 root 0 label 417e cells rest 0;\
         refused 11 kept;refused 11 kept;refused 11 kept;refused 11 kept;refused 11 kept;\
         refused 11 kept",
    ),
    // A label of 31 bytes is read and written; a length of 32 is refused at its byte, with no bytes
    // behind it and with all of them.
    (
        "f 041f;r 0;f 0420;r 0;\
         w 0 - 0 0 34 41414141414141414141414141414141414141414141414141414141414141 0;r 0;\
         w 0 - 0 0 35 4141414141414141414141414141414141414141414141414141414141414141 0;\
         f 04204141414141414141414141414141414141414141414141414141414141414141;r 0",
        "refused 11 kept;refused 13 kept;\
         bytes 34 07001f41414141414141414141414141414141414141414141414141414141414141 rest kept;\
         n 0 order 0000000000 records 0 root 0 \
         label 41414141414141414141414141414141414141414141414141414141414141 cells rest 0;\
         refused 13 kept;refused 13 kept",
    ),
    // Files out of sequence by level, by low, by high; parity, the records of the flag asked last
    // being exchanged, and so those above, but not by old numbers; a child behind its parent.
    (
        "f 0b030001020300010000010002000001000003000200;r 3r;\
         f 0b0300010204000200000100010200010001000002000004000300;r 4r;\
         f 0b0300010204000200000100010000020001000001000003000400;r all;\
         f 0b03020001050001010000000100000100000200030000030002000205000400;r 6r;\
         f 0b0300010204000100000300020000010001030001000002000400;r 4r",
        "n 3 order 0120000000 records 3 root 4 label - cells 2 0 1 1 0 1 0 2 3 rest 0;\
         n 3 order 0120000000 records 4 root 5 label - cells 2 0 1 1 0 2 1 2 1 0 3 4 rest 0;\
         n 3 order 0120000000 records 4 root 5 label - cells 2 0 1 1 0 1 1 0 2 0 4 3 rest 0;\
         n 3 order 2010000000 records 5 root 6 label - \
         cells 1 0 1 1 1 0 0 2 3 0 3 2 2 4 5 rest 0;\
         refused 6 kept",
    ),
    // The writer keeps a sequence; what is read back and written again has the one.
    (
        "w 3 000102 4 5 28 - 4r 2 0 1 1 2 1 1 0 2 0 4 3;r 4r;\
         w 3 000102 4 5 28 - 4r 2 0 1 1 0 2 1 2 1 0 3 4;r 4r",
        "bytes 27 0b0300010204000200000100010200010001000002000004000300 rest kept;\
         n 3 order 0120000000 records 4 root 5 label - cells 2 0 1 1 0 2 1 2 1 0 3 4 rest 0;\
         bytes 27 0b0300010204000200000100010000020001020001000003000400 rest kept;\
         n 3 order 0120000000 records 4 root 5 label - cells 2 0 1 1 0 2 1 2 1 0 3 4 rest 0",
    ),
    // Each byte of a file in turn. Without bit 0 the second byte is left over.
    (
        "f 1100;e 0 1;e 0 255;s 0 0;s 0 16",
        "refused 11 kept;n 1 order 0000000000 records 0 root 1 label - cells rest 0;\
         refused 11 kept;refused 1 kept;\
         refused 11 kept;n 0 order 0000000000 records 0 root 1 label - cells rest 0;\
         refused 11 kept;refused 1 kept",
    ),
];

fn number(word: &str) -> usize {
    word.parse().expect("a number")
}

/// A word of bytes.
pub fn hex(bytes: &[u8]) -> String {
    let pairs: String = bytes.iter().map(|byte| format!("{byte:02x}")).collect();
    if pairs.is_empty() {
        "-".to_string()
    } else {
        pairs
    }
}

fn bytes(word: &str) -> Vec<u8> {
    let pairs = word.trim_start_matches('-').as_bytes().chunks(2);
    let text = |pair| std::str::from_utf8(pair).expect("digits");
    pairs.map(|pair| u8::from_str_radix(text(pair), 16).expect("two digits")).collect()
}

/// Ten places of an order.
fn places(mut order: Vec<usize>) -> Vec<usize> {
    order.resize(10, 0);
    order
}

/// The files that a line reads, made of the one that stands.
fn variants(words: &[&str], file: &[u8]) -> Vec<Vec<u8>> {
    let with = |place: usize, byte: u8| {
        let mut file = file.to_vec();
        file[place] = byte;
        file
    };
    let each = 0..file.len();
    match *words {
        ["r", _] => vec![file.to_vec()],
        ["v", _, place] => (0..=255).map(|byte| with(number(place), byte)).collect(),
        ["e", _, add] => {
            each.map(|at| with(at, file[at].wrapping_add(number(add) as u8))).collect()
        }
        ["s", _, byte] => each.map(|at| with(at, number(byte) as u8)).collect(),
        ["c", _] => each.map(|length| file[..length].to_vec()).collect(),
        ["a", _, byte] => vec![[file, &[number(byte) as u8]].concat()],
        _ => panic!("no call: {words:?}"),
    }
}

fn say_filed(filed: &Filed) -> String {
    let Filed { order, label, records, root } = filed;
    let head = format!("n {} order {}", order.len(), digits(&places(order.clone())));
    let (count, label) = (records.len(), hex(label));
    let cells = phrase("cells", &records.concat());
    format!("{head} records {count} root {root} label {label} {cells} rest 0")
}

/// What a write is given, and the number of its bytes.
pub fn given(words: &[&str]) -> (Given, usize) {
    let order = bytes(words[1]).into_iter().map(usize::from).collect();
    let [n, used, root, lent, length] = [0, 2, 3, 4, 6].map(|at| number(words[at]));
    let mut cells: Vec<usize> = words[7..].iter().map(|word| number(word)).collect();
    cells.resize(length, 0);
    (Given { n, order: places(order), cells, used, root, label: bytes(words[5]) }, lent)
}

/// The line of a write.
pub fn say_write(given: &Given, bytes: usize) -> String {
    let Given { n, order, cells, used, root, label } = given;
    let order: Vec<u8> = order.iter().map(|&flag| flag as u8).collect();
    let (order, label) = (hex(&order[..(*n).min(10)]), hex(label));
    with_cells(&format!("w {n} {order} {used} {root} {bytes} {label}"), cells)
}

/// The words of a line, then the number of the lent cells and those up to the last that isn't 0.
pub fn with_cells(words: &str, cells: &[usize]) -> String {
    let kept = cells.len() - cells.iter().rev().take_while(|&&cell| cell == 0).count();
    phrase(words, &[&[cells.len()], &cells[..kept]].concat())
}

fn or_kept(answer: Result<String, usize>) -> String {
    let behind = if answer.is_err() { " kept\n" } else { "\n" };
    or_refused(answer) + behind
}

/// The output for a line, given the file that stands and left with the next.
pub fn answer(file: &mut Vec<u8>, line: &str) -> String {
    let words: Vec<&str> = line.split(' ').collect();
    if let ["f", word] = words[..] {
        *file = bytes(word);
        return String::new();
    }
    if words[0] == "w" {
        let (given, lent) = given(&words[1..]);
        let written = write(&given, lent);
        *file = written.clone().unwrap_or_default();
        let say = |file: Vec<u8>| format!("bytes {} {} rest kept", file.len(), hex(&file));
        return or_kept(written.map(say));
    }
    let loaded = |file: Vec<u8>| read(&file, number(words[1])).map(|filed| say_filed(&filed));
    variants(&words, file).into_iter().map(|file| or_kept(loaded(file))).collect()
}

/// The output for lines of input.
pub fn play(input: &str) -> String {
    let mut file = Vec::new();
    input.lines().map(|line| answer(&mut file, line)).collect()
}

/// What doesn't agree.
pub fn faults() -> Vec<String> {
    let found = |input: &str| play(&sized(input).replace(';', "\n")).trim_end().replace('\n', ";");
    let differ = WORKED.iter().filter(|(input, expected)| found(input) != *expected);
    differ
        .map(|(input, expected)| format!("{input}: expected {expected}, found {}", found(input)))
        .collect()
}
