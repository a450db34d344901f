//! How near to its deadline a flow ends: the edges of what is late (02, Req 06).

use crate::reader::{be16, read_book};
use crate::second_check::{FINISH, TABLE_HEAD};

/// The kinds of finish less deadline, from under -2 to over +1.
const KINDS: [&str; 6] = ["under", "-2", "-1", "0", "+1", "over"];

/// The flows of accepted tables, by their finish less their deadline.
#[derive(Default)]
pub struct Edges {
    met: [u64; KINDS.len()],
}

impl Edges {
    /// Counts the flows of a table that was accepted for the book.
    pub fn count(&mut self, book: &[u8], table: &[u8]) {
        let book = read_book(book).expect("an accepted book");
        for (number, flow) in book.flows.iter().enumerate() {
            let finish = be16(table, TABLE_HEAD + FINISH * number);
            let beyond = i64::from(finish) - i64::from(flow.deadline);
            self.met[(beyond.clamp(-3, 2) + 3) as usize] += 1;
        }
    }

    /// Prints the counts; each edge from -2 to +1 must have been met.
    pub fn hold(&self, of: &str) {
        let kinds = KINDS.iter().zip(self.met);
        let counts: Vec<String> = kinds.map(|(kind, met)| format!("{kind}: {met}")).collect();
        println!("{of}, flows by finish less deadline: {}", counts.join(", "));
        let edges = &self.met[1..5];
        assert!(
            edges.iter().all(|&met| met > 0),
            "{of}: an edge was never met"
        );
    }
}
