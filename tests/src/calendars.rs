//! Seeded generators of calendars: valid ones about the releases and deadlines of a
//! book, every fault of one, and books that are stretched so that they stand in the
//! open slots as they stood in all slots.

use crate::answer::SLOTS;
use crate::books::fit_length;
use crate::calendar::{Calendar, Window, CALENDAR_HEAD, LAST_REOPENING, MOST_WINDOWS, WINDOW};
use crate::reader::{Book, Version, MOST_DEADLINE};
use crate::rng::Rng;

/// The windows in their order, without those that meet one before them.
fn apart(mut windows: Vec<Window>) -> Calendar {
    windows.sort_by_key(|window| window.shut);
    let mut kept: Vec<Window> = Vec::new();
    for mut window in windows {
        window.again = window.again.min(LAST_REOPENING);
        let after = kept.last().is_none_or(|last| window.shut > last.again);
        if after && window.shut < window.again && kept.len() < MOST_WINDOWS {
            kept.push(window);
        }
    }
    Calendar { windows: kept }
}

/// So many windows anywhere before a slot, which must leave room for them.
fn spread(rng: &mut Rng, count: usize, before: u32) -> Calendar {
    let room = before as usize + 1;
    let mut slots: Vec<u32> = if room < 8 * count {
        let mut all: Vec<u32> = (0..=before).collect();
        rng.shuffle(&mut all);
        all.truncate(2 * count);
        all
    } else {
        let mut drawn = Vec::new();
        while drawn.len() < 2 * count {
            let slot = rng.index(room) as u32;
            if !drawn.contains(&slot) {
                drawn.push(slot);
            }
        }
        drawn
    };
    slots.sort_unstable();
    let pairs = slots.chunks_exact(2);
    Calendar {
        windows: pairs.map(|pair| Window::new(pair[0], pair[1])).collect(),
    }
}

/// A window that begins or ends about a release or a deadline of the book.
fn near(rng: &mut Rng, book: &Book) -> Window {
    let length = rng.skewed(1, 12) as u32;
    let slot = if book.flows.is_empty() {
        rng.skewed(0, 100) as u32
    } else {
        let flow = &book.flows[rng.index(book.flows.len())];
        rng.pick(&[flow.release, flow.deadline])
    };
    let shut = match rng.below(5) {
        0 => slot,
        1 => slot + 1,
        2 => slot.saturating_sub(length),
        3 => slot.saturating_sub(length + 1),
        _ => slot.saturating_sub(rng.below(u64::from(length) + 1) as u32),
    };
    Window::new(shut, shut + length)
}

/// A valid calendar for the book.
pub fn valid(rng: &mut Rng, book: &Book) -> Calendar {
    let last = book.flows.iter().map(|flow| flow.deadline).max();
    let last = last.unwrap_or(MOST_DEADLINE);
    let anywhere = (2 * last).min(LAST_REOPENING);
    let count = rng.range(1, 4) as usize;
    match rng.below(20) {
        0..=3 => Calendar::default(),
        4..=9 => apart((0..count).map(|_| near(rng, book)).collect()),
        10 => {
            // From slot 0 on.
            let again = rng.skewed(1, 40) as u32;
            apart(vec![Window::new(0, again), near(rng, book)])
        }
        11 | 12 => {
            // Up to the last reopening.
            let shut = LAST_REOPENING - rng.skewed(1, 4_000) as u32;
            apart(vec![near(rng, book), Window::new(shut, LAST_REOPENING)])
        }
        13 | 14 => spread(rng, MOST_WINDOWS, anywhere.max(63)),
        15 => {
            // Every other slot, or two of three.
            let (step, shut) = rng.pick(&[(2, 1), (3, 2), (3, 1), (9, 1)]);
            let from = rng.skewed(0, 20) as u32;
            let windows = (0..MOST_WINDOWS as u32).map(|k| from + step * k);
            apart(windows.map(|at| Window::new(at, at + shut)).collect())
        }
        16 => spread(rng, 1, LAST_REOPENING),
        17 => spread(rng, count, anywhere.max(8)),
        18 if !book.flows.is_empty() => {
            // Every slot before a deadline, or all but the first.
            let deadline = book.flows[rng.index(book.flows.len())].deadline;
            let shut = rng.pick(&[0, 1]);
            apart(vec![Window::new(shut, deadline.max(shut + 1))])
        }
        _ => {
            let count = rng.range(1, MOST_WINDOWS as u64) as usize;
            spread(rng, count, anywhere.max(63))
        }
    }
}

/// Maintenance as a shift has it: one to four windows of a few slots before the last
/// deadline.
pub fn maintenance(rng: &mut Rng, book: &Book) -> Calendar {
    let last = book.flows.iter().map(|flow| flow.deadline).max();
    let last = u64::from(last.unwrap_or(MOST_DEADLINE));
    let windows = (0..rng.range(1, 4)).map(|_| {
        let shut = rng.below(last) as u32;
        Window::new(shut, shut + rng.range(2, 12) as u32)
    });
    apart(windows.collect())
}

/// The book in the open slots of a calendar: before each deadline and each release
/// stand as many open slots as slots before. Nothing where a deadline is too great.
/// Its plan is that of the book without windows, with each slot as the open slot of
/// that number. Of the slots that a release may be, every other flow has the first,
/// which may be shut, and the others have the last, which is open.
pub fn stretched(book: &Book, calendar: &Calendar) -> Option<Book> {
    let mut book = book.clone();
    for (number, flow) in book.flows.iter_mut().enumerate() {
        flow.deadline = calendar.slot_after(flow.deadline);
        if flow.deadline > MOST_DEADLINE {
            return None;
        }
        flow.release = calendar.slot_after(flow.release);
        let at_once = book.version == Version::One || number % 2 == 0;
        while !at_once && !calendar.is_open(flow.release) {
            flow.release += 1;
        }
    }
    Some(book)
}

/// A valid calendar for the book, and the book as it is or stretched by it.
pub fn with_calendar(rng: &mut Rng, book: Book) -> (Book, Calendar) {
    let calendar = valid(rng, &book);
    if rng.chance(2, 3) {
        if let Some(stretched) = stretched(&book, &calendar) {
            return (stretched, calendar);
        }
    }
    (book, calendar)
}

fn put16(bytes: &mut [u8], at: usize, value: u32) {
    if let Some(field) = bytes.get_mut(at..at + 2) {
        field.copy_from_slice(&(value as u16).to_be_bytes());
    }
}

/// The bytes of a calendar, damaged in one place. They may be a calendar still.
pub fn damaged(rng: &mut Rng, calendar: &Calendar) -> Vec<u8> {
    let mut calendar = calendar.clone();
    let windows = &mut calendar.windows;
    if !windows.is_empty() && rng.chance(1, 2) {
        let at = rng.index(windows.len());
        let before = at.checked_sub(1).map_or(0, |before| windows[before].again);
        let Window { shut, again } = windows[at];
        windows[at] = match rng.below(6) {
            0 => Window::new(shut, shut),
            1 => Window::new(again, shut),
            2 => Window::new(before, again),
            3 => Window::new(before.saturating_sub(1), again),
            4 => Window::new(shut, rng.pick(&[4_096, 4_097, 8_192, 65_535])),
            _ => Window::new(before + 1, again),
        };
        return calendar.encode();
    }
    let mut bytes = calendar.encode();
    match rng.below(8) {
        0 => bytes[4] = rng.pick(&[0, 2, 255]),
        1 => bytes[5] = bytes[5].wrapping_add(rng.pick(&[1, 255, 33])),
        2 => bytes[rng.index(4)] ^= 1 << rng.below(8),
        3 => bytes.truncate(rng.index(bytes.len())),
        4 => {
            bytes.truncate(rng.index(bytes.len()));
            fit_length(&mut bytes);
        }
        5 => {
            bytes.extend((0..rng.range(1, 9)).map(|k| k as u8));
            if rng.chance(3, 4) {
                fit_length(&mut bytes);
            }
        }
        6 => bytes.clear(),
        _ => {
            let at = rng.index(bytes.len());
            bytes[at] ^= 1 << rng.below(8);
        }
    }
    bytes
}

/// What is lent as a calendar: mostly its bytes, at times damaged ones.
pub fn lent(rng: &mut Rng, calendar: &Calendar) -> Vec<u8> {
    if rng.chance(1, 24) {
        damaged(rng, calendar)
    } else {
        calendar.encode()
    }
}

/// A calendar of so many windows, each of one slot and one slot apart.
fn comb(count: u32) -> Calendar {
    let windows: Vec<[u32; 2]> = (0..count).map(|k| [2 * k, 2 * k + 1]).collect();
    Calendar::of(&windows)
}

/// Calendars that each have one fault, with what it is.
pub fn each_fault() -> Vec<(&'static str, Vec<u8>)> {
    let mut faults: Vec<(&str, Vec<u8>)> = Vec::new();
    // No windows, one, some, and the most.
    let some = Calendar::of(&[[2, 5], [6, 9], [100, 4_096]]);
    let intact = [Calendar::default(), comb(1), some, comb(32)];
    for calendar in &intact {
        let bytes = calendar.encode();
        let mut changed = |what, change: &dyn Fn(&mut Vec<u8>)| {
            let mut bytes = bytes.clone();
            change(&mut bytes);
            faults.push((what, bytes));
        };
        for field in [0, 1, 2, 3] {
            for bit in 0..8 {
                changed("length field", &|bytes| bytes[field] ^= 1 << bit);
            }
        }
        for version in [0, 2, 3, 128, 255] {
            changed("version", &|bytes| bytes[4] = version);
        }
        for count in 0..=255 {
            if count as usize != calendar.windows.len() {
                changed("count unlike the bytes", &|bytes| bytes[5] = count);
            }
        }
        for length in 0..bytes.len() {
            changed("cut", &|bytes| bytes.truncate(length));
            // Under a length that fits: with whole windows the count still says more.
            changed("cut and fitted", &|bytes| {
                bytes.truncate(length);
                fit_length(bytes);
            });
        }
        for more in [1, 2, 3, 4, 5, 8, 200] {
            changed("longer", &|bytes| bytes.resize(bytes.len() + more, 9));
            changed("longer and fitted", &|bytes| {
                bytes.resize(bytes.len() + more, 9);
                fit_length(bytes);
            });
        }
        for (k, &Window { shut, again }) in calendar.windows.iter().enumerate() {
            let at = CALENDAR_HEAD + WINDOW * k;
            changed("empty", &|bytes| put16(bytes, at + 2, shut));
            changed("empty", &|bytes| put16(bytes, at, again));
            changed("reversed", &|bytes| {
                put16(bytes, at, again);
                put16(bytes, at + 2, shut);
            });
            for late in [4_097, 4_098, 8_192, 65_535] {
                changed("reopens too late", &|bytes| put16(bytes, at + 2, late));
            }
            if k > 0 {
                let before = calendar.windows[k - 1];
                changed("touching", &|bytes| put16(bytes, at, before.again));
                changed("overlapping", &|bytes| put16(bytes, at, before.again - 1));
                changed("the same beginning", &|bytes| put16(bytes, at, before.shut));
            }
        }
    }
    faults.push(("33 windows", comb(33).encode()));
    faults.push(("255 windows", comb(255).encode()));
    faults.push((
        "only a touching one",
        Calendar::of(&[[0, 1], [1, 2]]).encode(),
    ));
    faults.push(("out of order", Calendar::of(&[[5, 6], [1, 2]]).encode()));
    faults.push(("whole and one more", Calendar::of(&[[0, 4_097]]).encode()));
    faults
}

/// The number of the last kind below.
pub const NONE_OPEN: usize = 9;

/// How often calendars of a kind were met.
#[derive(Default)]
pub struct Kinds {
    met: [u64; KINDS.len()],
}

const KINDS: [&str; 10] = [
    "no windows",
    "some windows",
    "a window at slot 0",
    "one that ends at a release",
    "one that begins at a release",
    "one across a deadline",
    "one that reopens at 4,096",
    "all 32 windows",
    "long windows",
    "no open slot before a deadline",
];

impl Kinds {
    /// Counts a calendar that was lent with the book.
    pub fn count(&mut self, book: &Book, calendar: &Calendar) {
        let windows = &calendar.windows;
        let mut met = |kind: usize, is: bool| self.met[kind] += u64::from(is);
        let any = |of: &dyn Fn(&Window) -> bool| windows.iter().any(of);
        let releases: Vec<u32> = book.flows.iter().map(|flow| flow.release).collect();
        let deadlines: Vec<u32> = book.flows.iter().map(|flow| flow.deadline).collect();
        let first = windows.first();
        let open_at = first
            .filter(|first| first.shut == 0)
            .map_or(0, |first| first.again);
        met(0, windows.is_empty());
        met(1, !windows.is_empty());
        met(2, open_at > 0);
        met(3, any(&|window| releases.contains(&window.again)));
        met(4, any(&|window| releases.contains(&window.shut)));
        let across = |window: &Window, slot: u32| window.shut < slot && slot < window.again;
        met(
            5,
            any(&|window| deadlines.iter().any(|&slot| across(window, slot))),
        );
        met(6, any(&|window| window.again == LAST_REOPENING));
        met(7, windows.len() == MOST_WINDOWS);
        met(8, calendar.shut_slots().count() > SLOTS / 8);
        met(
            NONE_OPEN,
            deadlines.iter().any(|&deadline| deadline <= open_at),
        );
    }

    /// Prints the counts; each kind must have been met, but those that are left out.
    /// Version 1 has no release that a window could end at.
    pub fn hold(&self, version: Version, of: &str, left_out: &[usize]) {
        let kinds = KINDS.iter().zip(self.met);
        let counts: Vec<String> = kinds.map(|(kind, met)| format!("{kind}: {met}")).collect();
        println!("{version:?}, {of}, calendars: {}", counts.join(", "));
        let never = |kind| left_out.contains(&kind) || version == Version::One && kind == 3;
        for (number, (kind, met)) in KINDS.iter().zip(self.met).enumerate() {
            assert!(met > 0 || never(number), "{of}: {kind} was never met");
        }
    }
}
