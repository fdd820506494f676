//! The second program: an oracle for the diagram engine, written apart from it. From a table it
//! draws the full decision tree, applies the two collapsing steps of document 001, section 2.1,
//! as they are worded, and finds the packed order by trying every order, up to six flags walking
//! each row of its collapsed tree. It finds the flags that a walk asks by the table, and by the
//! collapsed tree. By tables alone it numbers a diagram's records, and keeps a store, with the
//! plain book beside it; it reads and writes rule files, prints sheets and tallies logs. It checks
//! the papers' examples, writes test vectors, lists a table, plays a log through one, and plays
//! lines of files, of sheets and of store calls. "The paper" below is document 01; `Err` holds the
//! number of a refusal. Build: rustc -O --edition 2021 second.rs

mod book;
mod damaged;
mod file_edges;
mod file_lines;
mod files;
mod listing;
mod lists;
mod log;
mod logs;
mod permitted;
mod play;
mod replays;
mod scribe;
mod sequence;
mod sheet;
mod sheets;
mod store;
mod worked;

use std::collections::HashSet;
use std::hash::Hash;
use std::io::Read;

/// The cells of a record, and the most that may be lent: those of 1,024 records.
const WIDTH: usize = 3;
const CELLS: usize = 1024 * WIDTH;

/// What refusal 5 tests: "length no multiple of 3, or above 3,072".
fn are_unfit(cells: usize) -> bool {
    cells % WIDTH != 0 || cells > CELLS
}

/// Text in which each word for a number of cells is that number: `2r` are those of two records,
/// `all` the most that may be lent, `all+1r` one record more, `2r+1` one cell more.
fn sized(text: &str) -> String {
    let term = |term: &str| match (term, term.strip_suffix('r')) {
        ("all", _) => Some(CELLS),
        (_, Some(records)) => Some(records.parse::<usize>().ok()? * WIDTH),
        _ => term.parse().ok(),
    };
    let word = |word: &str| {
        let cells = word.split('+').map(term).sum::<Option<usize>>();
        let is_sized = word.starts_with("all") || word.contains('r');
        cells.filter(|_| is_sized).map_or(word.to_string(), |cells| cells.to_string())
    };
    let parts = text.split_inclusive([' ', ';', '\n']);
    let each = parts.map(|part| {
        let bare = part.trim_end_matches([' ', ';', '\n']);
        word(bare) + &part[bare.len()..]
    });
    each.collect()
}

/// A node of a tree or diagram; its low and high sons are places in `Diagram::nodes`.
#[derive(Clone, Copy, Debug, PartialEq)]
enum Node {
    Deleted,
    Terminal(usize),
    Internal(usize, [usize; 2]),
}

struct Diagram {
    nodes: Vec<Node>,
    root: usize,
}

impl Diagram {
    /// Adds the decision tree that asks the flags of `order`, sons before their parent, and gives
    /// its root; `row` has the answers taken above it. Every row ends in a terminal of its own.
    fn grow(&mut self, table: &[usize], order: &[usize], row: usize) -> usize {
        let node = match order.split_first() {
            None => Node::Terminal(table[row]),
            Some((&flag, later)) => {
                let low = self.grow(table, later, row);
                let high = self.grow(table, later, row | (1 << flag));
                Node::Internal(flag, [low, high])
            }
        };
        self.nodes.push(node);
        self.nodes.len() - 1
    }

    /// "delete node b and direct all of its incoming edges to a"; the root has one from outside.
    fn delete(&mut self, b: usize, a: usize) {
        self.nodes[b] = Node::Deleted;
        for node in &mut self.nodes {
            if let Node::Internal(_, sons) = node {
                *sons = sons.map(|son| if son == b { a } else { son });
            }
        }
        self.root = if self.root == b { a } else { self.root };
    }

    /// The first node b, from a place on, to which a step applies, and the node a that takes its
    /// edges. Sons stand before parents, so equivalent nodes are equal ones here: "if we collapse
    /// from the terminals to the root, we need only check whether the sons are equal".
    fn step(&self, from: usize) -> Option<(usize, usize)> {
        (from..self.nodes.len()).find_map(|b| match self.nodes[b] {
            Node::Deleted => None,
            Node::Internal(_, [low, high]) if low == high => Some((b, low)),
            node => self.nodes[..b].iter().position(|&a| a == node).map(|a| (b, a)),
        })
    }

    /// "A walk starts at the root and takes low or high by the row until an end node": that node,
    /// and the flags of the nodes passed.
    fn walk(&self, row: usize) -> (Node, Vec<usize>) {
        let (mut node, mut asked) = (self.nodes[self.root], Vec::new());
        while let Node::Internal(flag, sons) = node {
            asked.push(flag);
            node = self.nodes[sons[(row >> flag) & 1]];
        }
        (node, asked)
    }
}

/// What is told of a reduced diagram: `flags[i]` of its nodes ask flag i, and the walks over all
/// rows ask so many flags in total.
struct Drawing {
    order: Vec<usize>,
    nodes: usize,
    flags: Vec<usize>,
    asked: usize,
    root: usize,
}

/// "the flags asked" by a row's walk, in their sequence and by the table alone: flag v where the
/// rule, with the flags before v in the order fixed as in the row, depends on v.
fn flags_asked(table: &[usize], order: &[usize], row: usize) -> Vec<usize> {
    let (mut asked, mut before) = (Vec::new(), 0);
    for &v in order {
        let mut alike = (0..table.len()).filter(|other| (other ^ row) & before == 0);
        if alike.any(|other| table[other] != table[other ^ (1 << v)]) {
            asked.push(v);
        }
        before |= 1 << v;
    }
    asked
}

/// "a ten-bit set of the flags asked and their number" (document 02, request 2): bit v of the set
/// is 1 for flag v.
fn set_and_number(asked: &[usize]) -> (usize, usize) {
    (asked.iter().map(|v| 1 << v).sum(), asked.len())
}

/// The table under the order: the tree, collapsed until neither step applies.
fn collapse(table: &[usize], order: &[usize]) -> Diagram {
    let mut diagram = Diagram { nodes: Vec::new(), root: 0 };
    diagram.root = diagram.grow(table, order, 0);
    assert_eq!(diagram.nodes.len() + 1, 2 << order.len(), "a tree has 2^(n+1) - 1 nodes");
    let mut from = 0;
    while let Some((b, a)) = diagram.step(from) {
        diagram.delete(b, a);
        from = b; // before b no step applied, and deleting b altered nothing there
    }
    assert_eq!(diagram.step(0), None, "a step still applies");
    for (row, &answer) in table.iter().enumerate() {
        let expected = (Node::Terminal(answer), flags_asked(table, order, row));
        assert_eq!(diagram.walk(row), expected, "row {row} after the collapse");
    }
    diagram
}

fn draw(table: &[usize], order: &[usize]) -> Drawing {
    let diagram = collapse(table, order);
    let asks = |node: &Node, i: usize| matches!(node, Node::Internal(flag, _) if *flag == i);
    let count = |i: usize| diagram.nodes.iter().filter(|node| asks(node, i)).count();
    let flags: Vec<usize> = (0..order.len()).map(count).collect();
    let nodes = flags.iter().sum();
    let asked = (0..table.len()).map(|row| diagram.walk(row).1.len()).sum();
    // "its root is its last record, or an end node when there are none"; record k is node k+2.
    let root = if nodes == 0 { table[0] } else { nodes + 1 };
    Drawing { order: order.to_vec(), nodes, flags, asked, root }
}

/// All orders of n flags that begin as given, by dictionary comparison.
fn orders(n: usize, begun: &[usize]) -> Vec<Vec<usize>> {
    if begun.len() == n {
        return vec![begun.to_vec()];
    }
    let next = (0..n).filter(|flag| !begun.contains(flag));
    next.flat_map(|flag| orders(n, &[begun, &[flag]].concat())).collect()
}

fn flag_count(table: &[usize]) -> usize {
    table.len().trailing_zeros() as usize
}

/// The nodes, and the flags that the walks over all rows ask in total, without drawing. "Nodes
/// asking flag v number the distinct rules that depend on v and arise by fixing the flags before v
/// in all ways." With the flag asked first as the highest bit of a row, fixing flags cuts the table
/// into pieces, and one depends on the next flag if its halves differ; then each of its rows asks.
fn count(table: &[usize], order: &[usize]) -> (usize, usize) {
    let n = order.len();
    let seen = |row: usize| (0..n).map(|k| ((row >> (n - 1 - k)) & 1) << order[k]).sum::<usize>();
    let rows: Vec<u8> = (0..table.len()).map(|row| table[seen(row)] as u8).collect();
    let asking = |k: usize| {
        let half = rows.len() >> (k + 1);
        let pieces = rows.chunks(2 * half).filter(|piece| piece[..half] != piece[half..]);
        let pieces: Vec<&[u8]> = pieces.collect();
        (pieces.iter().collect::<HashSet<_>>().len(), pieces.len() * 2 * half)
    };
    let levels: Vec<(usize, usize)> = (0..n).map(asking).collect();
    (levels.iter().map(|level| level.0).sum(), levels.iter().map(|level| level.1).sum())
}

/// "Pack now takes, among the orders with fewest nodes, one whose walks over all 2^n rows ask the
/// fewest flags in total, and only then goes by dictionary comparison": min_by_key gives the first
/// of equals. From seven flags on both are counted, and only the order found is drawn.
fn draw_packed(table: &[usize]) -> Drawing {
    let all = orders(flag_count(table), &[]).into_iter();
    let drawing = if flag_count(table) <= 6 {
        all.map(|order| draw(table, &order)).min_by_key(|drawing| (drawing.nodes, drawing.asked))
    } else {
        all.min_by_key(|order| count(table, order)).map(|order| draw(table, &order))
    };
    let drawing = drawing.expect("every n has an order");
    let counted = count(table, &drawing.order);
    assert_eq!((drawing.nodes, drawing.asked), counted, "counted otherwise");
    drawing
}

/// How many of the tables are packed in another order than the first with the fewest nodes, which
/// the paper took before request 6; and of how many.
fn changed(tables: &[Vec<usize>]) -> String {
    let changes = |table: &&Vec<usize>| {
        let all = orders(flag_count(table), &[]);
        let counts: Vec<(usize, usize)> = all.iter().map(|order| count(table, order)).collect();
        let shortest = (0..all.len()).min_by_key(|&place| counts[place]);
        shortest != (0..all.len()).min_by_key(|&place| counts[place].0)
    };
    let changed = tables.iter().filter(changes).count();
    assert!(changed > 0, "no table tells the two choices apart");
    format!("{changed} of {}", tables.len())
}

/// "give the first that applies": the tests stand in their sequence.
fn refuse(tests: &[(usize, bool)]) -> Result<(), usize> {
    tests.iter().find(|(_, applies)| *applies).map_or(Ok(()), |(number, _)| Err(*number))
}

/// Not "a flag missing or twice, or a place from n on not 0"; if none is missing, none is twice.
fn is_order(order: &[usize], n: usize) -> bool {
    (0..n).all(|flag| order.iter().take(n).any(|&place| place == flag))
        && order.iter().skip(n).all(|&place| place == 0)
}

/// A word with its numbers behind it; the bare word when there are none.
fn phrase(word: &str, numbers: &[usize]) -> String {
    numbers.iter().fold(word.to_string(), |text, number| format!("{text} {number}"))
}

fn digits(numbers: &[usize]) -> String {
    numbers.iter().map(usize::to_string).collect()
}

fn or_refused(answer: Result<String, usize>) -> String {
    answer.unwrap_or_else(|number| phrase("refused", &[number]))
}

/// What is asked, and those parts of the answer that the papers name: `build N TABLE CELLS ORDER`,
/// `pack N TABLE CELLS WORKSPACE` or `list TABLE`; the table `01*8` is 01 eight times, and `sized`
/// has the words for cells. Ten flags are tried by build only: pack would have 10! orders to draw.
const EXAMPLES: &[(&str, &str)] = &[
    // Document 01, settled examples.
    ("pack 0 1 all 1", "nodes 0; root 1; cells"),
    ("pack 1 00 all 3", "nodes 0; order 0; cells"),
    ("pack 1 01 all 3", "nodes 1; cells 0 0 1"),
    ("pack 2 0011 all 9", "nodes 1; order 0 1; flags 0 1; cells 1 0 1"),
    ("pack 3 00010111 all 27", "nodes 4; cells 2 0 1 1 0 2 1 2 1 0 3 4"),
    ("build 3 01101001 all 012", "nodes 5; cells 2 0 1 2 1 0 1 2 3 1 3 2 0 4 5"),
    ("build 3 01101001 all 021", "nodes 5"),
    ("build 3 01101001 all 102", "nodes 5"),
    ("build 3 01101001 all 120", "nodes 5"),
    ("build 3 01101001 all 201", "nodes 5; cells 1 0 1 1 1 0 0 2 3 0 3 2 2 4 5"),
    ("build 3 01101001 all 210", "nodes 5"),
    ("build 4 0001000100011111 all 0123", "nodes 4; cells 3 0 1 2 0 2 1 3 1 0 3 4"),
    ("build 4 0001000100011111 all 0213", "nodes 6; cells 3 0 1 1 0 1 1 2 1 2 0 2 2 3 4 0 5 6"),
    ("build 3 00100101 all 012", "nodes 4; cells 2 0 1 2 1 0 1 0 3 0 4 2"),
    ("build 3 00100101 all 102", "nodes 5; cells 2 0 1 2 1 0 0 0 2 0 3 2 1 4 5"),
    ("build 10 01*512 all 0123456789", "nodes 1"),
    ("build 11 01*1024 all 0123456789", "refused 1"),
    ("pack 11 01*1024 all 177147", "refused 1"),
    ("pack 3 00010111 all 26", "refused 8"),
    ("pack 3 00010111 4 27", "refused 5"),
    ("pack 3 01101001 15 27", "nodes 5"),
    ("pack 3 01101001 12 27", "refused 10"),
    // Document 01, the listing program.
    (
        "list 0000010100110111",
        "flags 4\nnodes 4\norder 0 2 1 3\nflag 0 1\nflag 1 1\nflag 2 1\nflag 3 1\nyes 7",
    ),
    ("list 1", "flags 0\nnodes 0\norder\nyes 1"),
    ("list 0*1025", "refused 1"),
    ("list ", "refused 2"),
    ("list 02", "refused 3"),
    ("list 0*512", "refused 8"),
    // By hand: two records of one level by their high nodes, and by their low ones; two that have
    // the same children, by level.
    ("build 3 00010011 all 012", "nodes 4; cells 2 0 1 1 0 1 1 0 2 0 4 3"),
    ("build 3 00010111 all 012", "nodes 4; cells 2 0 1 1 0 2 1 2 1 0 3 4"),
    ("build 3 00011011 all 012", "nodes 3; cells 2 0 1 1 0 1 0 2 3"),
    // Document 02, request 6: as few nodes in two orders, an order that asks less with more nodes,
    // and one whose paths are shorter.
    ("build 3 00000111 all 012", "nodes 3; asked 18"),
    ("build 3 00000111 all 201", "nodes 3; asked 14"),
    ("pack 3 00000111 all 27", "nodes 3; order 2 0 1; asked 14"),
    ("list 00000111", "flags 3\nnodes 3\norder 2 0 1\nflag 0 1\nflag 1 1\nflag 2 1\nyes 3"),
    ("build 4 1010000001001101 all 0312", "nodes 7; asked 48"),
    ("pack 4 1010000001001101 all 81", "nodes 6; order 0 2 1 3; asked 52"),
    ("pack 4 0001110001001010 all 81", "nodes 8; order 0 2 1 3; asked 52"),
    // Document 001, Fig. 2 (a) and (b); their orders are listed there from the end nodes upward.
    ("build 4 0001000100011111 all 2301", "nodes 4"),
    ("build 4 0001000100011111 all 2031", "nodes 6"),
    // Document 002, page 26: x1x2 + x2x3 + x3x4, the first order being better (counted by hand).
    ("build 4 0001001100011111 all 0123", "nodes 6"),
    ("build 4 0001001100011111 all 0312", "nodes 7"),
    // Page 30: v2 to v6; 36: a, b, C and D; 38: v9 and v10; 39: v4, v5, v11 and v12.
    ("build 3 10111101 all 012", "nodes 5; flags 1 2 2"),
    ("build 4 0000010110001101 all 0123", "nodes 4; flags 1 1 1 1"),
    ("build 2 1011 all 01", "nodes 2; flags 1 1"),
    ("build 3 11111001 all 012", "nodes 4; flags 1 2 1"),
];

/// The digits of a word, as often as it says.
fn numbers(word: &str) -> Vec<usize> {
    let (digits, times) = word.split_once('*').unwrap_or((word, "1"));
    let digits: Vec<usize> = digits.bytes().map(|byte| usize::from(byte - b'0')).collect();
    digits.repeat(times.parse().expect("a number of times"))
}

/// Build and pack go by the refusal table: they "test downwards and give the first that applies".
fn answer(ask: &str) -> Result<String, usize> {
    let words: Vec<&str> = ask.split(' ').collect();
    let number = |at: usize| words[at].parse::<usize>().expect("a number");
    let (order, workspace) = match words[0] {
        "list" => return listing::list(digits(&numbers(words[1])).as_bytes()),
        // "An order is kept in ten bytes, the places from n on being 0."
        "build" => (Some([numbers(words[4]), vec![0; 10 - words[4].len()]].concat()), 0),
        _ => (None, number(4)),
    };
    let (n, table, cells) = (number(1), numbers(words[2]), number(3));
    refuse(&[
        (1, n > 10),
        (2, table.len() != 1 << n),
        (3, table.iter().any(|&byte| byte > 1)),
        (4, matches!(&order, Some(order) if !is_order(order, n))),
        (5, are_unfit(cells)),
        (8, order.is_none() && workspace < 3usize.pow(n as u32)),
    ])?;
    let drawing = order.map_or_else(|| draw_packed(&table), |order| draw(&table, &order[..n]));
    refuse(&[(10, drawing.nodes > cells / WIDTH)])?;
    let Drawing { order, nodes, flags, asked, root } = drawing;
    let cells = phrase("cells", &sequence::drawn(&table, &order).concat());
    let (order, flags) = (phrase("order", &order), phrase("flags", &flags));
    Ok(format!("nodes {nodes}; {order}; {flags}; asked {asked}; root {root}; {cells}"))
}

/// Gives the exit code: 0 if every example agrees, and the own checks of the store, the files, the
/// sequence, the sheet and the logs.
fn check() -> i32 {
    let mut code = 0;
    for (ask, expected) in EXAMPLES {
        let found = or_refused(answer(&sized(ask)));
        if !expected.split("; ").all(|part| found.split("; ").any(|other| other == part)) {
            println!("second: {ask}: expected {expected}, found {found}");
            code = 1;
        }
    }
    let faults = [
        worked::faults(),
        file_lines::faults(),
        sequence::faults(),
        sheet::faults(),
        log::faults(),
    ];
    for fault in faults.concat() {
        println!("second: {fault}");
        code = 1;
    }
    if code == 0 {
        let worked = worked::LISTS.len() + file_lines::WORKED.len() + sheet::WORKED.len();
        println!("second: {} examples agree", EXAMPLES.len() + worked + log::WORKED.len());
    }
    code
}

/// The generator xorshift64*, so that every run writes the same bytes.
struct Dice(u64);

impl Dice {
    fn below(&mut self, limit: usize) -> usize {
        self.0 ^= self.0 >> 12;
        self.0 ^= self.0 << 25;
        self.0 ^= self.0 >> 27;
        (self.0.wrapping_mul(0x2545_F491_4F6C_DD1D) >> 33) as usize % limit
    }

    fn order(&mut self, n: usize) -> Vec<usize> {
        let mut order: Vec<usize> = (0..n).collect();
        (1..n).for_each(|place| order.swap(place, self.below(place + 1)));
        order
    }

    /// A table in which about `eighths` of eight rows say yes.
    fn table(&mut self, n: usize, eighths: usize) -> Vec<usize> {
        table_from(n, |_| self.below(8) < eighths)
    }
}

fn table_from(n: usize, rule: impl FnMut(usize) -> bool) -> Vec<usize> {
    (0..1 << n).map(rule).map(usize::from).collect()
}

fn all_tables(n: usize) -> impl Iterator<Item = Vec<usize>> {
    (0..1usize << (1 << n)).map(move |all| table_from(n, |row| (all >> row) & 1 == 1))
}

/// The table of n flags in which flag `flags[i]` plays flag i of the given table.
fn recast(table: &[usize], n: usize, flags: &[usize]) -> Vec<usize> {
    let seen = |row: usize| (0..flags.len()).map(|i| ((row >> flags[i]) & 1) << i).sum::<usize>();
    table_from(n, |row| table[seen(row)] == 1)
}

/// Parity, the thresholds "at least k of n" from always to never and, with the flags shuffled,
/// multiplexers, sums of pairs and tables that ignore flags.
fn tables_with_form(n: usize, dice: &mut Dice) -> Vec<Vec<usize>> {
    let mut tables = vec![table_from(n, |row| row.count_ones() % 2 == 1)];
    tables.extend((0..=n as u32 + 1).map(|k| table_from(n, |row| row.count_ones() >= k)));
    let selects = if n < 4 { 1 } else { 2 };
    let multiplexer = table_from(n, |row| (row >> selects >> (row % (1 << selects))) & 1 == 1);
    let pairs = table_from(n, |row| row & (row >> 1) & 0b010101 != 0);
    for _ in 0..4 {
        let flags = dice.order(n);
        tables.extend([&multiplexer, &pairs].map(|table| recast(table, n, &flags)));
        tables.extend((1..n).map(|kept| recast(&dice.table(kept, 4), n, &flags[..kept])));
    }
    tables
}

/// The tables of the vectors, each once: the paper's, all of up to two flags, and others.
fn vector_tables(dice: &mut Dice) -> Vec<Vec<usize>> {
    let settled = "1 00 01 0011 00010111 01101001 0001000100011111 00100101 0000010100110111";
    let mut tables: Vec<Vec<usize>> = settled.split(' ').map(numbers).collect();
    tables.extend((0..=2).flat_map(all_tables));
    (3..=6).for_each(|n| tables.extend(tables_with_form(n, dice)));
    tables.extend((0..400).map(|i| dice.table(3 + i % 4, [1, 2, 4, 6, 7][i % 5])));
    tables = each_once(tables);
    tables.truncate(400);
    tables
}

fn each_once<T: Clone + Eq + Hash>(mut items: Vec<T>) -> Vec<T> {
    let mut met = HashSet::new();
    items.retain(|item| met.insert(item.clone()));
    items
}

/// Tables of seven and eight flags, to be packed too.
fn large_tables() -> Vec<Vec<usize>> {
    let mut dice = Dice(0x0B5E_55ED_CAFE_0078);
    let mut tables = tables_with_form(7, &mut dice);
    tables.extend([1, 2, 4, 4, 6, 7].map(|eighths| dice.table(7, eighths)));
    let pairs = table_from(8, |row| row & (row >> 1) & 0b01010101 != 0);
    tables.push(recast(&pairs, 8, &dice.order(8)));
    tables.push(recast(&dice.table(6, 4), 8, &dice.order(8)[..6]));
    tables.extend([1, 4, 4, 6].map(|eighths| dice.table(8, eighths)));
    each_once(tables)
}

/// What settles request 6, and two that tell its choice from others: one where another order asks
/// less with more nodes, and one where the diagram's paths would choose otherwise than the rows.
fn shorter_tables() -> Vec<Vec<usize>> {
    ["00000111", "1010000001001101", "0001110001001010"].map(numbers).to_vec()
}

/// Numbers as one: at each, 31 times the sum so far, the number and 7, modulo 65,521.
fn sum_of(numbers: impl IntoIterator<Item = usize>) -> usize {
    numbers.into_iter().fold(0, |sum, number| (31 * sum + number + 7) % 65_521)
}

/// What the walks of all rows hand back beside their answers, as one number; a row has the set and
/// 1,024 times the number.
fn sum_of_walks(table: &[usize], order: &[usize]) -> usize {
    let walks = (0..table.len()).map(|row| set_and_number(&flags_asked(table, order, row)));
    sum_of(walks.map(|(set, number)| set + 1024 * number))
}

/// The used cells in sequence; from seven flags on as one number.
fn say_cells(table: &[usize], order: &[usize]) -> String {
    let cells = sequence::drawn(table, order).concat();
    if order.len() <= 6 {
        phrase("cells", &cells)
    } else {
        phrase("sum", &[sum_of(cells)])
    }
}

fn vectors(directory: &str) -> std::io::Result<()> {
    let mut dice = Dice(0x0B5E_55ED_CAFE_0001);
    let tables = vector_tables(&mut dice);
    let [mut pack_in, mut pack_out, mut build_in, mut build_out] = [(); 4].map(|_| String::new());
    let packed = [tables.clone(), large_tables(), shorter_tables()].concat();
    for table in &packed {
        let Drawing { order, nodes, flags, .. } = draw_packed(table);
        let cells = say_cells(table, &order);
        let (order, flags) = (phrase("order", &order), phrase("flags", &flags));
        pack_in += &format!("p {}\n", digits(table));
        pack_out += &format!("nodes {nodes} {order} {flags} {cells}\n");
    }
    let mut case = |table: &[usize], order: &[usize]| {
        let Drawing { nodes, flags, asked, .. } = draw(table, order);
        assert_eq!((nodes, asked), count(table, order), "counted otherwise");
        build_in += &format!("d {} {}\n", digits(table), digits(order));
        let (flags, walks) = (phrase("flags", &flags), sum_of_walks(table, order));
        build_out += &format!("nodes {nodes} {flags} walks {walks} {}\n", say_cells(table, order));
    };
    for table in tables.iter().filter(|table| table.len() <= 16).take(60) {
        orders(flag_count(table), &[]).iter().for_each(|order| case(table, order));
    }
    for table in tables.iter().filter(|table| table.len() > 16).cycle().take(200) {
        case(table, &dice.order(flag_count(table)));
    }
    for n in [7, 8, 9, 10, 10] {
        let table = dice.table(n, 4);
        case(&table, &dice.order(n));
    }
    std::fs::create_dir_all(directory)?;
    std::fs::write(format!("{directory}/pack.in"), pack_in)?;
    std::fs::write(format!("{directory}/pack.out"), pack_out)?;
    std::fs::write(format!("{directory}/build.in"), build_in)?;
    std::fs::write(format!("{directory}/build.out"), build_out)?;
    let (store_in, store_out) = lists::vectors();
    std::fs::write(format!("{directory}/store.in"), store_in)?;
    std::fs::write(format!("{directory}/store.out"), store_out)?;
    let (file_in, file_out) = damaged::vectors();
    std::fs::write(format!("{directory}/file.in"), file_in)?;
    std::fs::write(format!("{directory}/file.out"), file_out)?;
    let (sheet_in, sheet_out) = sheets::vectors();
    std::fs::write(format!("{directory}/sheet.in"), sheet_in)?;
    std::fs::write(format!("{directory}/sheet.out"), sheet_out)?;
    let (listing_in, listing_out) = listing::vectors();
    std::fs::write(format!("{directory}/listing.in"), listing_in)?;
    std::fs::write(format!("{directory}/listing.out"), listing_out)?;
    let (tally_in, tally_out) = logs::vectors();
    std::fs::write(format!("{directory}/tally.in"), tally_in)?;
    std::fs::write(format!("{directory}/tally.out"), tally_out)?;
    let (packed, listed) = (changed(&packed), changed(&listing::tables()));
    println!("second: request 6 gave {packed} packed tables another order, and {listed} listed");
    Ok(())
}

/// Gives the exit code, or None for any other use.
fn run(words: &[&str]) -> Option<i32> {
    let input = || std::io::stdin().lock().bytes().collect::<Result<Vec<u8>, _>>().expect("input");
    match words {
        ["check"] => return Some(check()),
        ["vectors", directory] => vectors(directory).expect("DIR can be written"),
        ["list"] => print!("{}", listing::say(&input())),
        ["tally"] => print!("{}", log::say(&input())),
        ["file"] => print!("{}", file_lines::play(&String::from_utf8(input()).ok()?)),
        ["sheet"] => print!("{}", sheet::play(&String::from_utf8(input()).ok()?)),
        ["store"] => print!("{}", play::play(&String::from_utf8(input()).ok()?)),
        _ => return None,
    }
    Some(0)
}

fn main() {
    let arguments: Vec<String> = std::env::args().skip(1).collect();
    let code = run(&arguments.iter().map(String::as_str).collect::<Vec<_>>());
    if code.is_none() {
        let lines = "file <lines | sheet <lines | store <lists";
        eprintln!("usage: second check | vectors DIR | list <table | tally <log | {lines}");
    }
    std::process::exit(code.unwrap_or(2));
}
