//! How long a table may be by the sizes of its book: each row is at least one of the
//! processor-slots that the sizes sum to.

use crate::reader::{read_book, Book};
use crate::second_check::{FINISH, ROW, TABLE_HEAD};

/// The bytes that a table of the book has at most.
pub fn most_bytes(book: &Book) -> u64 {
    let jobs = book.flows.iter().flat_map(|flow| &flow.jobs);
    let sizes: u64 = jobs.map(|job| u64::from(job.size)).sum();
    (TABLE_HEAD + FINISH * book.flows.len()) as u64 + ROW as u64 * sizes
}

/// Accepted tables with a row, and those of them that are as long as may be.
#[derive(Default)]
pub struct Lengths {
    tables: u64,
    exact: u64,
}

impl Lengths {
    /// A table that was accepted for the book, which must not be longer than may be.
    pub fn count(&mut self, book: &[u8], table: &[u8]) {
        let book = read_book(book).expect("an accepted book");
        let most = most_bytes(&book);
        let length = table.len() as u64;
        assert!(length <= most, "{length} bytes are above {most}");
        if !book.flows.is_empty() {
            self.tables += 1;
            self.exact += u64::from(length == most);
        }
    }

    /// Prints the counts; some tables must be as long as may be, and some shorter.
    pub fn hold(&self, of: &str) {
        let Lengths { tables, exact } = self;
        println!("{of}, tables: {tables}, as long as the sizes allow: {exact}");
        assert!(0 < *exact && exact < tables);
    }
}
