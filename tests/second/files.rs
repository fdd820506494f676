//! Rule files, read and written by the paper's words. The reader is lent a number of cells, the
//! writer what stands in them and a number of bytes.

use crate::sequence::{put_in_sequence, table_of};
use crate::{are_unfit, collapse, is_order, refuse, Diagram, Node, WIDTH};
use std::collections::BTreeSet;

/// "the longest label in any file of ours has exactly 31. That becomes the limit for reader and
/// writer" (document 02, request 1).
const LONGEST_LABEL: usize = 31;

/// The flag asked, the low node and the high node.
pub type Record = [usize; WIDTH];

/// What a file says. There are as many flags as the order names.
#[derive(Clone, Debug, PartialEq)]
pub struct Filed {
    pub order: Vec<usize>,
    pub label: Vec<u8>,
    pub records: Vec<Record>,
    pub root: usize,
}

impl Filed {
    /// A table under an order, with the records as the collapse leaves them.
    pub fn collapsed(table: &[usize], order: Vec<usize>, label: &str) -> Filed {
        let (records, root) = records_of(&collapse(table, &order));
        Filed { order, label: label.into(), records, root }
    }
}

/// What the writer takes, but for the bytes; the order has all its ten places.
#[derive(Clone, Debug)]
pub struct Given {
    pub n: usize,
    pub order: Vec<usize>,
    pub cells: Vec<usize>,
    pub used: usize,
    pub root: usize,
    pub label: Vec<u8>,
}

/// "Record k, from 0, is node k+2": of a collapsed tree, in which sons stand before their parents.
/// With the root.
pub fn records_of(diagram: &Diagram) -> (Vec<Record>, usize) {
    let mut numbers = vec![0; diagram.nodes.len()];
    let mut records = Vec::new();
    for (place, node) in diagram.nodes.iter().enumerate() {
        if let Node::Internal(flag, sons) = *node {
            records.push([flag, numbers[sons[0]], numbers[sons[1]]]);
            numbers[place] = records.len() + 1;
        } else if let Node::Terminal(answer) = *node {
            numbers[place] = answer;
        }
    }
    (records, numbers[diagram.root])
}

/// "each flag is below n; low and high differ and are smaller than the record's own node number; a
/// child that is a record asks a flag standing later in the order; no two used records are equal".
pub fn are_sound(records: &[Record], order: &[usize]) -> bool {
    let place = |flag: usize| order.iter().position(|&at| at == flag);
    (0..records.len()).all(|k| {
        let [flag, low, high] = records[k];
        let later = |child: usize| child < 2 || place(records[child - 2][0]) > place(flag);
        flag < order.len()
            && low != high
            && [low, high].iter().all(|&child| child < k + 2 && later(child))
            && !records[..k].contains(&records[k])
    })
}

/// "every record can be reached from the root": all ways down from it.
fn are_reached(records: &[Record], root: usize) -> bool {
    let mut met = BTreeSet::new();
    let mut ahead = vec![root];
    while let Some(node) = ahead.pop() {
        if node > 1 && met.insert(node) {
            ahead.extend(&records[node - 2][1..]);
        }
    }
    met.len() == records.len()
}

fn is_unprinted(byte: &u8) -> bool {
    !(0x20..=0x7E).contains(byte)
}

/// The next field of a file; 11 when it "runs past the end".
fn take<'a>(rest: &mut &'a [u8], length: usize) -> Result<&'a [u8], usize> {
    refuse(&[(11, length > rest.len())])?;
    let (field, later) = rest.split_at(length);
    *rest = later;
    Ok(field)
}

/// "The reader tests 5, then the file from left to right, each field's 11 ahead of its contents,
/// then 11 for bytes left over, then 6 for the records." These come as they stand in the file.
pub fn as_written(file: &[u8], cells: usize) -> Result<Filed, usize> {
    refuse(&[(5, are_unfit(cells))])?;
    let rest = &mut &file[..];
    let map = take(rest, 1)?[0];
    let stands = |bit: usize| (map >> bit) & 1 == 1;
    refuse(&[(12, map >> 5 != 0 || (stands(3) && stands(4)))])?;
    let n = if stands(0) { usize::from(take(rest, 1)?[0]) } else { 0 };
    refuse(&[(1, n > 10)])?;
    let mut order: Vec<usize> = (0..n).collect();
    if stands(1) {
        order = take(rest, n)?.iter().map(|&flag| usize::from(flag)).collect();
        refuse(&[(4, !is_order(&order, n))])?;
    }
    let mut label: &[u8] = &[];
    if stands(2) {
        let length = usize::from(take(rest, 1)?[0]);
        refuse(&[(13, length == 0 || length > LONGEST_LABEL)])?;
        label = take(rest, length)?;
        refuse(&[(13, label.iter().any(is_unprinted))])?;
    }
    let mut records = Vec::new();
    if stands(3) {
        let two = |bytes: &[u8]| usize::from(bytes[0]) + 256 * usize::from(bytes[1]);
        let count = two(take(rest, 2)?);
        refuse(&[(6, count == 0), (10, count > cells / WIDTH)])?;
        let record = |bytes: &[u8]| [usize::from(bytes[0]), two(&bytes[1..]), two(&bytes[3..])];
        records = take(rest, 5 * count)?.chunks(5).map(record).collect();
    }
    refuse(&[(11, !rest.is_empty()), (6, !are_sound(&records, &order))])?;
    // "its root is its last record"
    let root = if records.is_empty() { usize::from(stands(4)) } else { records.len() + 1 };
    refuse(&[(6, !are_reached(&records, root))])?;
    Ok(Filed { order, label: label.to_vec(), records, root })
}

/// The rule with its records in sequence: that of the table that they stand for.
pub fn in_sequence(filed: &Filed) -> Filed {
    let Filed { order, records, root, .. } = filed;
    let records = put_in_sequence(records, &table_of(records, *root, order.len()), order);
    Filed { records, ..filed.clone() }
}

/// "Files in another permitted sequence are still read; their records are put in sequence on
/// loading" (document 02, request 3).
pub fn read(file: &[u8], cells: usize) -> Result<Filed, usize> {
    as_written(file, cells).map(|filed| in_sequence(&filed))
}

/// "The first byte is a bit map; fields follow in bit order, only where the bit stands."
pub fn bytes_of(map: usize, filed: &Filed) -> Vec<u8> {
    let two = |number: usize| [(number % 256) as u8, (number / 256) as u8];
    let record = |&[flag, low, high]: &Record| [&[flag as u8], &two(low)[..], &two(high)].concat();
    let fields = [
        vec![filed.order.len() as u8],
        filed.order.iter().map(|&flag| flag as u8).collect(),
        [&[filed.label.len() as u8], &filed.label[..]].concat(),
        [two(filed.records.len()).to_vec(), filed.records.iter().flat_map(record).collect()]
            .concat(),
    ];
    let standing = (0..4).filter(|bit| (map >> bit) & 1 == 1).flat_map(|bit| fields[bit].clone());
    [map as u8].into_iter().chain(standing).collect()
}

/// What check tests, down the refusal table to 7: the diagram that is given, with its label as it
/// is. The records stand as the lent cells have them.
pub fn diagram(given: &Given) -> Result<Filed, usize> {
    let Given { n, order, cells, used, root, label } = given;
    refuse(&[(1, *n > 10), (4, !is_order(order, *n)), (5, are_unfit(cells.len()))])?;
    let order = order[..*n].to_vec();
    // "not sound, or more used than the cells hold"; "every cell past the used records is 0"
    refuse(&[(6, WIDTH * used > cells.len())])?;
    let (within, past) = cells.split_at(WIDTH * used);
    let records: Vec<Record> =
        within.chunks(WIDTH).map(|cells| [cells[0], cells[1], cells[2]]).collect();
    refuse(&[(6, !are_sound(&records, &order) || past.iter().any(|&cell| cell != 0))])?;
    // "for a diagram with a root up to used records + 1, a record out of reach"
    let is_node = *root <= used + 1;
    refuse(&[(6, is_node && !are_reached(&records, *root)), (7, !is_node)])?;
    Ok(Filed { order, label: label.clone(), records, root: *root })
}

/// "The writer always sets bits 0 and 1; it sets the others when needed". It goes by the refusal
/// table, 13 ahead of 10. "Lent cells in another permitted sequence are accepted as before, and the
/// writer keeps theirs."
pub fn write(given: &Given, bytes: usize) -> Result<Vec<u8>, usize> {
    let filed = diagram(given)?;
    let Filed { label, records, root, .. } = &filed;
    refuse(&[(13, label.len() > LONGEST_LABEL || label.iter().any(is_unprinted))])?;
    let needed = [(2, !label.is_empty()), (3, !records.is_empty()), (4, *root == 1)];
    let bits = needed.iter().filter(|(_, needed)| *needed);
    let file = bytes_of(3 + bits.map(|(bit, _)| 1 << bit).sum::<usize>(), &filed);
    refuse(&[(10, file.len() > bytes)])?;
    Ok(file)
}
