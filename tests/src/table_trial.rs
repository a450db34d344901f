//! What the table check and the dispatch list are held on: the tables of drawn books with
//! damaged copies, damaged books and damaged calendars, tables with another book, and
//! bytes that are hardly a book or a table.

use crate::books::{self, encode_book, Family};
use crate::calendar::Calendar;
use crate::calendars;
use crate::marked;
use crate::reader::{Book, Version};
use crate::rng::Rng;
use crate::tables::{self, Table};

/// A book and its calendar, with the bytes of both.
pub struct Of {
    pub book: Book,
    pub calendar: Calendar,
    pub bytes: Vec<u8>,
    pub lent: Vec<u8>,
}

impl Of {
    pub fn new((book, calendar): (Book, Calendar)) -> Of {
        Of {
            bytes: encode_book(&book),
            lent: calendar.encode(),
            book,
            calendar,
        }
    }
}

/// Draws cases and compares them.
pub trait TableTrial {
    fn rng(&mut self) -> &mut Rng;

    /// A book of a family, in the version of the trial, and a calendar.
    fn draw(&mut self, family: Family) -> Of;

    /// A table that is valid.
    fn compare_valid(&mut self, of: &Of, table: &Table);

    /// A damaged copy of one.
    fn compare_damaged(&mut self, of: &Of, table: &[u8]);

    fn compare_bytes(&mut self, book: &[u8], calendar: &[u8], table: &[u8]);

    /// A table with several damaged copies, and with damaged books and calendars.
    fn compare_around(&mut self, of: &Of, table: &Table, damaged: usize) {
        self.compare_valid(of, table);
        for _ in 0..damaged {
            let table = tables::damaged(self.rng(), &of.book, &of.calendar, table);
            self.compare_damaged(of, &table);
        }
        let intact = table.encode(&of.book);
        for _ in 0..damaged.div_ceil(3) {
            let mut bytes = of.bytes.clone();
            books::damage_book(self.rng(), &mut bytes);
            let lent = calendars::lent(self.rng(), &of.calendar);
            self.compare_bytes(&bytes, &lent, &intact);
        }
        let lent = calendars::damaged(self.rng(), &of.calendar);
        self.compare_bytes(&of.bytes, &lent, &intact);
    }

    /// Books of a family, each with the planner's table and another valid one, where
    /// there are.
    fn compare_books(&mut self, count: usize, family: Family, damaged: usize) {
        for _ in 0..count {
            let of = self.draw(family);
            if let Some(table) = tables::planned_table(&of.book, &of.calendar) {
                self.compare_around(&of, &table, damaged);
            }
            if let Some(table) = tables::delayed_table(self.rng(), &of.book, &of.calendar) {
                self.compare_around(&of, &table, damaged);
            }
        }
    }

    /// Every slot of the work area in use from the release on, by every flow.
    fn compare_layered(&mut self, version: Version, damaged: usize) {
        for (flows, jobs, slots) in [(64, 1, 8_192), (1, 64, 8_192), (64, 64, 64)] {
            let book = books::layered_in(version, flows, jobs, slots);
            let of = Of::new((book, Calendar::default()));
            let table = tables::planned_table(&of.book, &of.calendar).expect("feasible");
            self.compare_around(&of, &table, damaged);
        }
    }

    /// The table of one book with another.
    fn compare_crossed(&mut self, count: usize) {
        let mut last = marked::table_a();
        for _ in 0..count {
            let of = self.draw(books::tiny_book);
            self.compare_bytes(&of.bytes, &of.lent, &last);
            if let Some(table) = tables::delayed_table(self.rng(), &of.book, &of.calendar) {
                last = table.encode(&of.book);
            }
        }
    }

    /// Bytes that are hardly a book or a table.
    fn compare_random(&mut self, count: usize) {
        for _ in 0..count {
            let book = if self.rng().chance(1, 2) {
                books::random_bytes(self.rng(), 80)
            } else {
                let mut bytes = self.draw(books::tiny_book).bytes;
                books::damage_book(self.rng(), &mut bytes);
                bytes
            };
            let table = books::random_bytes(self.rng(), 80);
            let calendar = calendars::lent(self.rng(), &Calendar::default());
            self.compare_bytes(&book, &calendar, &table);
        }
    }
}
