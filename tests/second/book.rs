//! The paper's plain book beside the store, row by row as it is worded there.

use crate::play::Name;
use crate::store::{row_count, Ask};
use std::collections::HashMap;

/// "It holds n and, at some node numbers, a table of 2^n rows." Where the paper leaves a number
/// free, the book has the node's name in its place.
pub struct Book {
    n: usize,
    tables: HashMap<Name, Vec<usize>>,
}

impl Book {
    /// No open was accepted yet, and n is that of the state lent.
    pub fn empty() -> Book {
        Book { n: 0, tables: HashMap::new() }
    }

    /// "An accepted open wipes the book, takes n from the state given, and writes the all-no table
    /// at 0 and the all-yes table at 1."
    pub fn opened(n: usize) -> Book {
        let ends = [0, 1].map(|end| (Name::Number(end), vec![end; row_count(n)]));
        Book { n, tables: HashMap::from(ends) }
    }

    pub fn at(&self, name: Name) -> Option<&Vec<usize>> {
        self.tables.get(&name)
    }

    /// "Its row r is: the constant; bit i of r for flag i; the operator's digit for row r of the
    /// two rules; row r of the second rule where the first has 1 there, else of the third; the
    /// rule's row whose number is r with bit i set to the fixed value."
    fn row(ask: &Ask, tables: &[&Vec<usize>], r: usize) -> usize {
        match *ask {
            Ask::Constant(value) => value,
            Ask::Flag(i) => (r >> i) % 2,
            Ask::Join(code) => (code >> (3 - 2 * tables[0][r] - tables[1][r])) % 2,
            Ask::Choose if tables[0][r] == 1 => tables[1][r],
            Ask::Choose => tables[2][r],
            Ask::Fix(i, value) => tables[0][r - ((r >> i) % 2 << i) + (value << i)],
            _ => panic!("{ask:?} writes nothing"),
        }
    }

    /// What an accepted call that makes a rule writes at the node handed back. "Where a rule among
    /// the arguments isn't in the book, nothing is written." Claimed too: "that a table written
    /// over an older one equals it".
    pub fn write(&mut self, ask: &Ask, arguments: &[Name], back: Name) {
        let there: Option<Vec<_>> = arguments.iter().map(|&name| self.at(name)).collect();
        if let Some(tables) = there {
            let rows = 0..row_count(self.n);
            let table: Vec<usize> = rows.map(|r| Book::row(ask, &tables, r)).collect();
            let older = self.tables.insert(back, table);
            assert!(older.map_or(true, |older| self.at(back) == Some(&older)), "{back:?} altered");
        }
    }
}
