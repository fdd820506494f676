//! Files that are read and rules that are written at the edges of what is fit: each refusal on both
//! sides of its edge, and each ahead of those that come after it.

use crate::file_lines::{hex, say_write, WORKED};
use crate::files::{are_sound, bytes_of, write, Filed, Given, Record};
use crate::{numbers, sized, CELLS, WIDTH};

/// Files, and the numbers of cells that they are read into.
const FILES: &[(&str, &[usize])] = &[
    // The cells: the settled file, and 5 ahead of whatever a file has.
    ("0b010001000000000100", &[0, 1, 2, WIDTH, WIDTH + 1, 2 * WIDTH - 1, 2 * WIDTH, CELLS - WIDTH, CELLS - 1, CELLS, CELLS + 1, CELLS + 2, CELLS + WIDTH]),
    ("10", &[0, 1, WIDTH, CELLS, CELLS + WIDTH]),
    ("-", &[0, 1, WIDTH + 1]),
    ("ff", &[0, WIDTH + 1, CELLS + WIDTH]),
    // The map: bits 5, 6 and 7, and bits 3 and 4, ahead of the fields that they call for.
    ("00", &[0]),
    ("1f", &[0]),
    ("20", &[0]),
    ("40", &[0]),
    ("80", &[0]),
    ("e0", &[0]),
    ("18", &[0]),
    ("3800", &[0]),
    ("1b010001000000000100", &[WIDTH]),
    ("2b010001000000000100", &[WIDTH]),
    ("8b010001000000000100", &[WIDTH]),
    // The flag count, and what it is ahead of.
    ("01", &[0]),
    ("010a", &[0]),
    ("010b", &[0]),
    ("01ff", &[0]),
    ("030b", &[0]),
    ("050b00", &[0]),
    ("110a", &[0]),
    ("110a00", &[0]),
    // The order: none of its bytes may lack; without bit 0 it has none.
    ("030a00010203040506070809", &[0]),
    ("130a09080706050403020100", &[0]),
    ("030a000102030405060708", &[0]),
    ("030a0001020304050607080a", &[0]),
    ("030a00010203040506070808", &[0]),
    ("0300", &[0]),
    ("030100", &[0]),
    ("030101", &[0]),
    ("0301ff", &[0]),
    ("03020100", &[0]),
    ("03020000", &[0]),
    ("03020102", &[0]),
    ("0302", &[0]),
    ("030201", &[0]),
    ("03030000", &[0]),
    ("0303000201", &[0]),
    ("0303000200", &[0]),
    ("0303020202", &[0]),
    ("0702000001", &[0]),
    ("0b020101", &[0]),
    ("02", &[0]),
    ("0200", &[0]),
    ("12", &[0]),
    ("060141", &[0]),
    // The label's length, then its bytes.
    ("04", &[0]),
    ("0400", &[0]),
    ("040041", &[0]),
    ("0401", &[0]),
    ("04011f", &[0]),
    ("040120", &[0]),
    ("04017e", &[0]),
    ("04017f", &[0]),
    ("040180", &[0]),
    ("0401ff", &[0]),
    ("040100", &[0]),
    ("04021f", &[0]),
    ("0402207e", &[0]),
    ("04021f20", &[0]),
    ("0402207f", &[0]),
    ("040320417e", &[0]),
    ("040320007e", &[0]),
    ("04014141", &[0]),
    ("04011f41", &[0]),
    ("0c011f", &[0]),
    ("0c0141", &[0]),
    ("0c00", &[0]),
    // A length above 31 is 13, ahead of the label's own 11 and of all that follows; one of 31 is not,
    // and an order's 4 comes first.
    ("041f", &[0]),
    ("0420", &[0, 1]),
    ("04201f", &[0]),
    ("0421", &[0]),
    ("0480", &[0]),
    ("04ff", &[0]),
    ("0c1f", &[0]),
    ("0c20", &[0]),
    ("0c20410000", &[0]),
    ("070100200b", &[0]),
    ("07010120", &[0]),
    // The record count: 6, then 10, then 11 for the records; its low byte stands first.
    ("08", &[0, WIDTH]),
    ("0801", &[0, WIDTH]),
    ("0800", &[0, WIDTH]),
    ("080000", &[0, WIDTH]),
    ("08000041", &[0, WIDTH]),
    ("080100", &[0, WIDTH]),
    ("080200", &[WIDTH, 2 * WIDTH]),
    ("080001", &[255 * WIDTH, 256 * WIDTH]),
    ("08ff03", &[CELLS - 2 * WIDTH, CELLS - WIDTH]),
    ("080004", &[CELLS - WIDTH, CELLS]),
    ("080104", &[CELLS]),
    ("080008", &[CELLS]),
    ("08ffff", &[0, CELLS]),
    // Bytes left over, ahead of what the records are.
    ("0b01000100000000010041", &[0, WIDTH, WIDTH + 1]),
    ("0b01000100000000000041", &[WIDTH]),
    ("0b010001000000000000", &[WIDTH]),
    ("0b01000100010000010041", &[WIDTH]),
    ("0b010001000100000100", &[WIDTH]),
];

/// Records under an order: diagrams, and such as differ from one in a single point.
pub const RECORDS: &[(&str, &[Record])] = &[
    ("0", &[[0, 0, 1]]),
    ("0", &[[0, 1, 0]]),
    ("0", &[[0, 0, 0]]),
    ("0", &[[0, 1, 1]]),
    ("", &[[0, 0, 1]]),
    ("0", &[[1, 0, 1]]),
    ("01", &[[1, 0, 1]]),
    ("01", &[[2, 0, 1]]),
    ("0123456789", &[[9, 1, 0]]),
    ("0123456789", &[[10, 1, 0]]),
    ("0", &[[255, 0, 1]]),
    ("0", &[[256, 0, 1]]),
    ("0", &[[65535, 0, 1]]),
    ("0", &[[0, 0, 2]]),
    ("0", &[[0, 2, 0]]),
    ("0", &[[0, 1, 3]]),
    ("0", &[[0, 0, 256]]),
    ("0", &[[0, 257, 0]]),
    ("0", &[[0, 0, 65535]]),
    ("0", &[[0, 65535, 1]]),
    ("0", &[[0, 65535, 65535]]),
    // A child that is a record: it asks a flag standing later, and has the smaller number.
    ("01", &[[1, 0, 1], [0, 0, 2]]),
    ("01", &[[1, 0, 1], [0, 2, 1]]),
    ("01", &[[1, 0, 1], [0, 2, 2]]),
    ("01", &[[1, 0, 1], [0, 3, 2]]),
    ("01", &[[1, 0, 1], [0, 2, 3]]),
    ("01", &[[1, 0, 1], [1, 0, 2]]),
    ("01", &[[0, 0, 1], [1, 0, 2]]),
    ("01", &[[0, 0, 1], [1, 2, 0]]),
    ("10", &[[0, 0, 1], [1, 0, 2]]),
    ("10", &[[0, 0, 1], [1, 2, 0]]),
    ("10", &[[1, 0, 1], [0, 0, 2]]),
    ("01", &[[0, 3, 1], [1, 0, 1]]),
    ("01", &[[1, 0, 1], [0, 0, 4]]),
    // Equal records, and records with equal children that ask two flags.
    ("01", &[[1, 0, 1], [1, 1, 0], [0, 2, 3]]),
    ("01", &[[1, 0, 1], [1, 0, 1], [0, 2, 3]]),
    ("012", &[[2, 0, 1], [1, 0, 1], [0, 2, 3]]),
    ("012", &[[2, 0, 1], [1, 0, 2], [2, 0, 1], [0, 3, 4]]),
    ("012", &[[2, 0, 1], [1, 0, 2], [2, 1, 0], [0, 3, 4]]),
    // Reach: the first record, one in the middle, all.
    ("01", &[[1, 0, 1], [0, 0, 1]]),
    ("012", &[[2, 0, 1], [1, 0, 2], [0, 0, 3]]),
    ("012", &[[2, 0, 1], [1, 0, 2], [0, 0, 2]]),
    ("012", &[[2, 0, 1], [0, 2, 1]]),
    ("012", &[[2, 0, 1], [2, 1, 0], [1, 2, 3], [1, 3, 2], [0, 4, 5]]),
    ("012", &[[2, 0, 1], [2, 1, 0], [1, 2, 3], [1, 3, 2], [0, 4, 2]]),
    ("201", &[[1, 0, 1], [0, 2, 1], [2, 2, 3]]),
    ("210", &[[1, 0, 1], [0, 2, 1], [2, 2, 3]]),
];

/// What the writer is given: N ORDER USED ROOT BYTES LABEL CELLS CELL CELL .., with the words of
/// `sized` for the number of cells.
pub const WRITES: &[&str] = &[
    // The flag count and the order.
    "10 00010203040506070809 0 1 12 - 0",
    "11 00010203040506070809 0 1 13 - 0",
    "255 - 0 1 2 - 0",
    "10 000102030405060708 0 1 12 - 0",
    "10 0001020304050607080a 0 1 12 - 0",
    "0 - 0 0 2 - 0",
    "0 00000000000000000000 0 1 2 - 0",
    "0 01 0 0 2 - 0",
    "0 00000000000000000001 0 0 2 - 0",
    "1 - 0 0 3 - 0",
    "1 01 0 0 3 - 0",
    "1 0001 0 0 3 - 0",
    "2 0100 0 0 4 - 0",
    "2 01 0 0 4 - 0",
    "2 0101 0 0 4 - 0",
    "2 0002 0 0 4 - 0",
    "2 ff00 0 0 4 - 0",
    "3 020001 0 1 5 - 0",
    "3 02000100000000000009 0 1 5 - 0",
    // The cells.
    "0 - 0 1 2 - 1",
    "0 - 0 1 2 - 1r",
    "0 - 0 1 2 - all",
    "0 - 0 1 2 - all+1",
    "0 - 0 1 2 - all+1r",
    "1 00 1 2 10 - 2 0 0",
    "1 00 1 2 10 - 1r 0 0 1",
    "1 00 1 2 10 - 1r+1 0 0 1",
    "1 00 1 2 10 - 2r 0 0 1",
    "1 00 1 2 10 - all 0 0 1",
    "1 00 1 2 10 - all+2 0 0 1",
    "1 00 1 2 10 - all+1r 0 0 1",
    // More used than the cells hold, and cells past the used records.
    "1 00 1 2 10 - 0",
    "1 00 2 3 15 - 1r 0 0 1",
    "1 00 2 3 15 - 2r 0 0 1",
    "1 00 65535 2 10 - 1r 0 0 1",
    "1 00 65535 65535 10 - all 0 0 1",
    "1 00 0 0 3 - 1r 0 0 1",
    "1 00 0 0 3 - 1r 0 0 0",
    "1 00 1 2 10 - 2r 0 0 1 1",
    "1 00 1 2 10 - 2r 0 0 1 0 1",
    "1 00 1 2 10 - 2r 0 0 1 0 0 1",
    "1 00 1 2 10 - 2r 0 0 1 0 1 0",
    "2 0001 1 2 11 - 2r 1 0 1 0 0 2",
    "2 0001 2 3 16 - 2r 1 0 1 0 0 2",
    "2 0001 2 3 16 - 3r 1 0 1 0 0 2 0 0 65535",
    // The root: every record is reached, or it is no node.
    "0 - 0 2 2 - 0",
    "0 - 0 65535 2 - 0",
    "1 00 1 0 10 - 1r 0 0 1",
    "1 00 1 1 10 - 1r 0 0 1",
    "1 00 1 3 10 - 1r 0 0 1",
    "1 00 1 65535 10 - 1r 0 0 1",
    "2 0001 2 2 16 - 2r 1 0 1 0 0 2",
    "2 0001 2 4 16 - 2r 1 0 1 0 0 2",
    "2 0001 2 3 16 - 2r 1 0 1 0 0 1",
    "2 0001 2 4 16 - 2r 1 0 1 0 0 1",
    // The label's bytes.
    "0 - 0 0 4 1f 0",
    "0 - 0 0 4 20 0",
    "0 - 0 0 4 7e 0",
    "0 - 0 0 4 7f 0",
    "0 - 0 0 4 00 0",
    "0 - 0 0 4 80 0",
    "0 - 0 0 4 ff 0",
    "0 - 0 1 6 1f417e 0",
    "0 - 0 1 6 201f7e 0",
    "0 - 0 1 6 20417f 0",
    "0 - 0 1 6 20417e 0",
    // The lent bytes: one too few, and some past the file.
    "0 - 0 0 0 - 0",
    "0 - 0 0 1 - 0",
    "0 - 0 0 3 - 0",
    "0 - 0 1 5 20417e 0",
    "0 - 0 1 9 20417e 0",
    "1 00 1 2 9 - 1r 0 0 1",
    "1 00 1 2 0 - 1r 0 0 1",
    "1 00 1 2 15 - 1r 0 0 1",
    "1 00 1 2 11 41 1r 0 0 1",
    "1 00 1 2 12 41 1r 0 0 1",
];

/// What may be wrong with a file of three flags that has a label of two bytes and records, or with
/// its cells, which hold the records exactly. Each stands where the reader meets it.
const FILE_FAULTS: &[fn(&mut Vec<u8>, &mut usize)] = &[
    |_, cells| *cells += 1,
    |file, _| file[0] |= 0x20,
    |file, _| file[0] |= 0x10,
    |file, _| file[1] = 11,
    |file, _| file[2] = file[3],
    |file, _| file[5] = 0,
    |file, _| file[5] = 32,
    |file, _| file[6] = 0x1F,
    |file, _| file[8] = 0,
    |file, cells| file[8] = (*cells / WIDTH + 1) as u8,
    |file, _| file[11] = file[13], // low is high, both below 256
    |file, _| file.push(0),
    |file, _| file.truncate(file.len() - 1),
];

/// What may be wrong with a write of the same rule into as many bytes as its file has.
const WRITE_FAULTS: &[fn(&mut Given, &mut usize)] = &[
    |given, _| given.n = 11,
    |given, _| given.order[0] = given.order[1],
    |given, _| given.cells.push(0),
    |given, _| given.cells[1] = given.cells[2],
    |given, _| given.root -= 1,
    |given, _| given.root += 2,
    |given, _| given.label[0] = 0x7F,
    |given, _| given.label.resize(32, 0x41),
    |_, bytes| *bytes -= 1,
];

/// A file, and the numbers of cells that it is read into.
pub fn reads(file: &[u8], cells: &[usize]) -> Vec<String> {
    let each = cells.iter().map(|cells| format!("r {cells}"));
    [format!("f {}", hex(file))].into_iter().chain(each).collect()
}

/// What the writer is given for a rule in cells that hold its records exactly.
pub fn given(filed: &Filed) -> Given {
    let Filed { order, label, records, root } = filed;
    let mut places = order.clone();
    places.resize(10, 0);
    let (n, used, cells, label) = (order.len(), records.len(), records.concat(), label.clone());
    Given { n, order: places, cells, used, root: *root, label }
}

/// Every map of bits 0 to 4, each field that it calls for being fit for one flag.
fn maps() -> Vec<String> {
    let filed = Filed { order: vec![0], label: b"A".to_vec(), records: vec![[0, 1, 0]], root: 2 };
    (0..32).flat_map(|map| reads(&bytes_of(map, &filed), &[WIDTH])).collect()
}

/// Labels at the edge: in a file that has as many bytes as its length says, one fewer, one more, and
/// a last one that isn't printed; and written.
fn labels() -> Vec<String> {
    let label = |length: usize| [vec![0x20; length - 1], vec![0x7E]].concat();
    let mut lines = Vec::new();
    for length in [30, 31, 32, 255] {
        let file = |bytes: usize| [&[0x04, length], &label(bytes)[..]].concat();
        let exact = usize::from(length);
        let unprinted = [&file(exact - 1)[..], &[0x7F]].concat();
        for file in [file(exact), file(exact - 1), file(exact + 1), unprinted] {
            lines.extend(reads(&file, &[0]));
        }
    }
    // In one byte the last two would be 0 and 31.
    for length in [30, 31, 32, 255, 256, 256 + 31] {
        lines.extend(labelled(label(length)));
    }
    lines
}

/// A rule of one flag under a label, written into as many bytes as its file has, one fewer and one
/// more, and read back.
fn labelled(label: Vec<u8>) -> Vec<String> {
    let filed = Filed { order: vec![0], label, records: vec![[0, 1, 0]], root: 2 };
    let exact = bytes_of(0b1111, &filed).len();
    let into = |bytes: usize| [say_write(&given(&filed), bytes), format!("r {WIDTH}")];
    [exact, exact - 1, exact + 1].into_iter().flat_map(into).collect()
}

/// Records in a file and given to the writer. A file has one byte for a flag.
fn records() -> Vec<String> {
    let mut lines = Vec::new();
    for (order, records) in RECORDS {
        let root = records.len() + 1;
        let filed = Filed { order: numbers(order), label: vec![], records: records.to_vec(), root };
        if records.iter().all(|record| record[0] < 256) {
            lines.extend(reads(&bytes_of(0b1011, &filed), &[WIDTH * records.len()]));
        }
        lines.push(say_write(&given(&filed), 64));
    }
    lines
}

/// As many records as all the cells hold, sound but not all reached: those that ask a flag have all
/// pairs of the nodes that ask later ones for children.
pub fn overfull() -> Filed {
    let order: Vec<usize> = (0..10).collect();
    let mut records: Vec<Record> = Vec::new();
    for flag in [9, 8, 7, 6] {
        let nodes = records.len() + 2;
        let pairs = (0..nodes * nodes).map(|pair| [flag, pair / nodes, pair % nodes]);
        records.extend(pairs.filter(|record| record[1] != record[2]));
        records.truncate(CELLS / WIDTH);
    }
    assert!(are_sound(&records, &order) && records.len() == CELLS / WIDTH);
    Filed { order, label: vec![], records, root: CELLS / WIDTH + 1 }
}

/// All of these, read and written. Then one record, and a last cell that is not 0.
fn most() -> Vec<String> {
    let filed = overfull();
    let mut lines = reads(&bytes_of(0b1001, &filed), &[CELLS - WIDTH, CELLS]);
    let mut given = given(&filed);
    lines.push(say_write(&given, CELLS));
    given.cells[WIDTH..CELLS - 1].fill(0);
    (given.used, given.root) = (1, 2);
    lines.push(say_write(&given, CELLS));
    lines
}

/// Each one of so many faults, and each two.
pub fn pairs(count: usize) -> Vec<Vec<usize>> {
    let with = |i: usize| (i + 1..count).map(move |j| vec![i, j]);
    (0..count).flat_map(|i| [vec![i]].into_iter().chain(with(i))).collect()
}

/// The faults of a file, each alone also with the file cut at each length.
fn file_faults(filed: &Filed) -> Vec<String> {
    let mut lines = Vec::new();
    for pair in pairs(FILE_FAULTS.len()) {
        let (mut file, mut cells) = (bytes_of(0b1111, filed), WIDTH * filed.records.len());
        pair.iter().for_each(|&at| FILE_FAULTS[at](&mut file, &mut cells));
        lines.extend(reads(&file, &[cells]));
        lines.extend(Some(format!("c {cells}")).filter(|_| pair.len() == 1));
    }
    lines
}

fn write_faults(filed: &Filed) -> Vec<String> {
    let say = |pair: Vec<usize>| {
        let mut given = given(filed);
        let mut bytes = bytes_of(0b1111, filed).len();
        assert_eq!(write(&given, bytes).map(|file| file.len()), Ok(bytes));
        pair.iter().for_each(|&at| WRITE_FAULTS[at](&mut given, &mut bytes));
        say_write(&given, bytes)
    };
    pairs(WRITE_FAULTS.len()).into_iter().map(say).collect()
}

/// All of these; the faults are those of a rule of three flags with a label of two bytes.
pub fn edges(filed: &Filed) -> Vec<String> {
    let worked = WORKED.iter().flat_map(|(input, _)| input.split(';').map(sized));
    let mut lines: Vec<String> = worked.collect();
    lines.extend(maps());
    for (file, cells) in FILES {
        lines.push(format!("f {file}"));
        lines.extend(cells.iter().map(|cells| format!("r {cells}")));
    }
    lines.extend(labels());
    lines.extend(records());
    lines.extend(WRITES.iter().map(|line| format!("w {}", sized(line))));
    lines.extend(file_faults(filed));
    lines.extend(write_faults(filed));
    lines.extend(most());
    lines
}
