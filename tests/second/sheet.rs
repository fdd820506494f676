//! The printed sheet for the workshop binder (document 02, request 4), by formatted text, and what
//! reads it back. Lines of input, a call each, with the words one blank apart:
//!
//!     s N ORDER USED ROOT BYTES CELLS CELL CELL ..
//!                       prints into so many lent bytes, 85 in each; of the lent cells those that
//!                       are not written here are 0
//!
//! ORDER is two digits to a byte, 0 to 9 and a to f, or `-` for no bytes; what is not written of
//! its ten places is 0. Every other number is in base ten.
//!
//! The output for each call:
//!
//!     pages P rest kept      and behind it the P pages, 60 lines each
//!     refused K kept
//!
//! `rest kept` says that the bytes past the last page are as lent, `kept` that all are.

use crate::file_edges::given;
use crate::file_lines::{self, hex, with_cells};
use crate::files::{are_sound, diagram, Filed, Given, Record};
use crate::sheets::{counted, faulty, fullest};
use crate::{all_tables, flag_count, orders, refuse, sized, Dice};

/// "Print a diagram on pages of 60 lines, each 20 characters and a line end (0A)."
const LINES: usize = 60;
const CHARACTERS: usize = 20;
pub const PAGE: usize = LINES * (CHARACTERS + 1);

/// "Then come 58 record lines"
pub const RECORD_LINES: usize = 58;

const HEAD: &str = " node fl   low  high";

/// Input, with the words of `sized` for numbers of cells, and lines of the output: line 0 is the
/// answer, 1 to 60 are the first page.
pub const WORKED: &[(&str, &[(usize, &str)])] = &[
    // No records, for "no" and "yes": one page.
    (
        "s 0 - 0 0 1260 0",
        &[
            (0, "pages 1 rest kept"),
            (1, " node fl   low  high"),
            (2, "                    "),
            (31, "                    "),
            (59, "                    "),
            (60, "page               1"),
        ],
    ),
    (
        "s 3 020001 0 1 1300 all",
        &[
            (0, "pages 1 rest kept"),
            (1, " node fl   low  high"),
            (2, "                    "),
            (59, "                    "),
            (60, "page               1"),
        ],
    ),
    // The settled file's record; parity of three flags, flag 2 asked first.
    (
        "s 1 00 1 2 1260 1r 0 0 1",
        &[
            (0, "pages 1 rest kept"),
            (1, " node fl   low  high"),
            (2, "    2  0     0     1"),
            (3, "                    "),
            (60, "page               1"),
        ],
    ),
    (
        "s 3 020001 5 6 1261 6r 1 0 1 1 1 0 0 2 3 0 3 2 2 4 5",
        &[
            (0, "pages 1 rest kept"),
            (1, " node fl   low  high"),
            (2, "    2  1     0     1"),
            (3, "    3  1     1     0"),
            (4, "    4  0     2     3"),
            (5, "    5  0     3     2"),
            (6, "    6  2     4     5"),
            (7, "                    "),
            (59, "                    "),
            (60, "page               1"),
        ],
    ),
    // Records in another permitted sequence are printed as they stand.
    (
        "s 3 000102 4 5 1260 4r 2 0 1 1 2 1 1 0 2 0 4 3",
        &[
            (2, "    2  2     0     1"),
            (3, "    3  1     2     1"),
            (4, "    4  1     0     2"),
            (5, "    5  0     4     3"),
            (6, "                    "),
        ],
    ),
    // Each refusal ahead of too few bytes, and these.
    ("s 11 0001 2 3 1259 2r 1 0 1 0 0 2", &[(0, "refused 1 kept")]),
    ("s 2 0000 2 3 1259 2r 1 0 1 0 0 2", &[(0, "refused 4 kept")]),
    ("s 2 000100 2 3 1259 2r+1 1 0 1 0 0 2", &[(0, "refused 5 kept")]),
    ("s 2 0100 2 3 1259 2r 1 0 1 0 0 2", &[(0, "refused 6 kept")]),
    ("s 2 0001 2 2 1259 2r 1 0 1 0 0 2", &[(0, "refused 6 kept")]),
    ("s 2 0001 2 4 1259 2r 1 0 1 0 0 2", &[(0, "refused 7 kept")]),
    ("s 2 0001 2 3 1259 2r 1 0 1 0 0 2", &[(0, "refused 10 kept")]),
    ("s 0 - 0 0 0 0", &[(0, "refused 10 kept")]),
];

/// Lines of the output for `fullest`. Node 59 ends the first page and 117 the second. Nodes 4 to 15
/// are the pairs of 0 to 3, and of the pairs of 0 to 15, which begin at node 16, each low node has
/// fifteen: node 59 is the fourteenth with low 2.
const FULLEST_LINES: &[(usize, &str)] = &[
    (0, "pages 5 rest kept"),
    (1, " node fl   low  high"),
    (2, "    2  9     0     1"),
    (3, "    3  9     1     0"),
    (4, "    4  8     0     1"),
    (9, "    9  8     1     3"),
    (15, "   15  8     3     2"),
    (16, "   16  7     0     1"),
    (30, "   30  7     0    15"),
    (31, "   31  7     1     0"),
    (59, "   59  7     2    14"),
    (60, "page               1"),
    (61, " node fl   low  high"),
    (62, "   60  7     2    15"),
    (119, "  117  7     6    12"),
    (120, "page               2"),
    (121, " node fl   low  high"),
    (122, "  118  7     6    13"),
    (147, "  143  7     8     7"),
    (148, "  144  6    16    17"),
    (180, "page               3"),
    (213, "  207  6   142   143"),
    (214, "  208  5   144   145"),
    (240, "page               4"),
    (241, " node fl   low  high"),
    (278, "  270  0   268   269"),
    (279, "                    "),
    (299, "                    "),
    (300, "page               5"),
];

/// Records, and the pages that they make.
const PAGES: &[(usize, usize)] =
    &[(0, 1), (1, 1), (57, 1), (58, 1), (59, 2), (116, 2), (117, 3), (269, 5)];

/// "node in 5 places, flag in 2, low in 5, high in 5, right-aligned, one blank between"
fn record_line(node: usize, [flag, low, high]: Record) -> String {
    format!("{node:>5} {flag:>2} {low:>5} {high:>5}")
}

/// "unused lines are blanks. The last line is `page` and the page number, from 1, right-aligned in
/// 16."
fn page(number: usize, record_lines: &[String]) -> String {
    let mut lines = vec![HEAD.to_string()];
    lines.extend_from_slice(record_lines);
    lines.resize(LINES - 1, " ".repeat(CHARACTERS));
    lines.push(format!("page{number:>16}"));
    lines.iter().map(|line| format!("{line}\n")).collect()
}

/// The pages of a diagram's records, "by rising node". "No records still make one page."
fn sheet(records: &[Record]) -> String {
    let lines: Vec<String> =
        (2..).zip(records).map(|(node, &record)| record_line(node, record)).collect();
    if lines.is_empty() {
        return page(1, &[]);
    }
    (1..).zip(lines.chunks(RECORD_LINES)).map(|(number, lines)| page(number, lines)).collect()
}

/// "The number of pages is handed back. Bytes past the last page are untouched." It is refused as
/// check is, and "a lent page buffer that is too short gives 10, tested last".
pub fn print(given: &Given, lent: &mut [u8]) -> Result<usize, usize> {
    let text = sheet(&diagram(given)?.records);
    refuse(&[(10, text.len() > lent.len())])?;
    lent[..text.len()].copy_from_slice(text.as_bytes());
    Ok(text.len() / PAGE)
}

/// The line of a call. Of the order at least n places are written.
pub fn say(given: &Given, bytes: usize) -> String {
    let Given { n, order, cells, used, root, .. } = given;
    let written = (0..10).rev().find(|&at| order[at] != 0).map_or(0, |at| at + 1);
    let order: Vec<u8> = order.iter().map(|&flag| flag as u8).collect();
    let order = hex(&order[..written.max((*n).min(10))]);
    with_cells(&format!("s {n} {order} {used} {root} {bytes}"), cells)
}

/// What a line gives, and the number of its bytes: its words are those of a write, without a label.
pub fn taken(line: &str) -> (Given, usize) {
    let mut words: Vec<&str> = line.split(' ').skip(1).collect();
    words.insert(5, "-");
    file_lines::given(&words)
}

/// The output for a line.
fn answer(line: &str) -> String {
    let (given, bytes) = taken(line);
    let mut lent = vec![85; bytes];
    let printed = print(&given, &mut lent);
    let (pages, rest) = lent.split_at(PAGE * printed.unwrap_or(0));
    assert!(rest.iter().all(|&byte| byte == 85), "{line}: altered");
    let text = String::from_utf8(pages.to_vec()).expect("text");
    match printed {
        Ok(pages) => format!("pages {pages} rest kept\n{text}"),
        Err(number) => format!("refused {number} kept\n"),
    }
}

/// The output for lines of input.
pub fn play(input: &str) -> String {
    input.lines().map(answer).collect()
}

/// A number that stands at the right of its places.
fn number_back(places: &str) -> Option<usize> {
    let word = places.trim_start();
    word.parse().ok().filter(|number: &usize| number.to_string() == word)
}

/// A record with its node, by the places of a line.
fn record_back(line: &str) -> Option<(usize, Record)> {
    let are_blank = [5, 8, 14].iter().all(|&at| line.get(at..at + 1) == Some(" "));
    let [node, flag, low, high] =
        [0..5, 6..8, 9..14, 15..20].map(|places| line.get(places).and_then(number_back));
    Some((node?, [flag?, low?, high?])).filter(|_| are_blank)
}

/// The records of a page, up to its first blank line; none may stand behind that.
fn page_back(number: usize, lines: &[&str]) -> Option<Vec<(usize, Record)>> {
    let (head, rest) = lines.split_first()?;
    let (last, body) = rest.split_last()?;
    let is_blank = |line: &&str| line.trim().is_empty();
    let used = body.iter().position(|line| is_blank(line)).unwrap_or(body.len());
    let is_page = *head == HEAD
        && body[used..].iter().all(|line| is_blank(line))
        && number_back(last.strip_prefix("page")?) == Some(number);
    let records = body[..used].iter().map(|line| record_back(line));
    records.collect::<Option<Vec<_>>>().filter(|_| is_page)
}

/// "The pages give back every record": each with its node, or None if they are no pages.
fn read_back(text: &str) -> Option<Vec<(usize, Record)>> {
    let lines: Vec<&str> = text.lines().collect();
    let pages = (1..).zip(lines.chunks(LINES)).map(|(number, lines)| page_back(number, lines));
    Some(pages.collect::<Option<Vec<_>>>()?.concat())
}

/// So many pages, 1,260 bytes each: every line ends behind 20 characters.
fn is_in_form(text: &str, pages: usize) -> bool {
    let is_line = |bytes: &[u8]| {
        let (end, characters) = bytes.split_last().expect("a chunk");
        *end == 0x0A && characters.len() == 20 && characters.iter().all(|byte| *byte >= 0x20)
    };
    text.len() == 1260 * pages && text.is_ascii() && text.as_bytes().chunks(21).all(is_line)
}

/// The text that a diagram gives, in bytes enough.
fn printed(filed: &Filed) -> String {
    let mut lent = vec![85; 8000];
    let pages = print(&given(filed), &mut lent).expect("a diagram");
    lent.truncate(1260 * pages);
    String::from_utf8(lent).expect("text")
}

/// Its pages are as many as is said, in form, and give back its records.
fn comes_back(filed: &Filed) -> bool {
    let text = printed(filed);
    let records: Vec<(usize, Record)> = (2..).zip(filed.records.iter().copied()).collect();
    let said = PAGES.iter().find(|(count, _)| *count == records.len());
    said.map_or(false, |(_, pages)| is_in_form(&text, *pages)) && read_back(&text) == Some(records)
}

/// "n, the order and an end-node root aren't printed": the same text under every order of as many
/// flags and of one more that accepts the records, and without records for both end nodes.
fn is_alike(filed: &Filed) -> bool {
    let (text, n) = (printed(filed), filed.order.len());
    let roots = if filed.records.is_empty() { 0..2 } else { filed.root..filed.root + 1 };
    let orders = [n, n + 1].into_iter().flat_map(|n| orders(n, &[]));
    let mut fit = orders.filter(|order| are_sound(&filed.records, order));
    fit.all(|order| {
        let with = |root: usize| Filed { order: order.clone(), root, ..filed.clone() };
        roots.clone().all(|root| printed(&with(root)) == text)
    })
}

/// The lines that the output for a line hasn't got.
fn missed(input: &str, expected: &[(usize, &str)]) -> Vec<String> {
    let output = answer(input);
    let found: Vec<&str> = output.lines().collect();
    let differ = expected.iter().filter(|(place, line)| found.get(*place) != Some(line));
    differ.map(|(place, line)| format!("{input}: line {place} is not {line:?}")).collect()
}

/// What doesn't agree. The diagrams of up to three flags are those in the rising order.
pub fn faults() -> Vec<String> {
    let worked = WORKED.iter().flat_map(|(input, expected)| missed(&sized(input), expected));
    let mut faults: Vec<String> = worked.collect();
    faults.extend(missed(&say(&given(&fullest()), 5 * PAGE), FULLEST_LINES));
    let counted = counted(&mut Dice(0x0B5E_55ED_CAFE_0013));
    for (count, _) in PAGES {
        let mut met = counted.iter().filter(|filed| filed.records.len() == *count).peekable();
        if met.peek().is_none() || !met.all(comes_back) {
            faults.push(format!("the pages of {count} records"));
        }
    }
    for table in (0..=3).flat_map(all_tables) {
        let filed = Filed::collapsed(&table, (0..flag_count(&table)).collect(), "");
        if !is_alike(&filed) {
            faults.push(format!("{filed:?} is printed in several ways"));
        }
    }
    for (number, line) in faulty(&counted) {
        faults.extend(missed(&line, &[(0, &format!("refused {number} kept"))]));
    }
    faults
}
