//! The calendar that goes with a book (02, Req 07): its windows, which slots are open,
//! and its bytes, read in two ways.

use crate::answer::Refusal;
use crate::reader::{be16, be32};

/// Bytes of the calendar's head and of one window.
pub const CALENDAR_HEAD: usize = 6;
pub const WINDOW: usize = 4;

/// The most windows, and the last slot at which one may reopen.
pub const MOST_WINDOWS: usize = 32;
pub const LAST_REOPENING: u32 = 4_096;

/// The calendar without windows.
pub const NO_WINDOWS: [u8; CALENDAR_HEAD] = [0x00, 0x00, 0x00, 0x06, 0x01, 0x00];

/// The first slot that is shut, and the first that is open again.
#[derive(Clone, Copy, Debug, PartialEq, Eq)]
pub struct Window {
    pub shut: u32,
    pub again: u32,
}

impl Window {
    pub fn new(shut: u32, again: u32) -> Window {
        Window { shut, again }
    }

    fn holds(&self, slot: u32) -> bool {
        self.shut <= slot && slot < self.again
    }
}

/// The windows of a calendar in their order.
#[derive(Clone, Debug, Default, PartialEq, Eq)]
pub struct Calendar {
    pub windows: Vec<Window>,
}

impl Calendar {
    /// A calendar from the first slot shut and the first slot open again of each window.
    pub fn of(windows: &[[u32; 2]]) -> Calendar {
        let window = |&[shut, again]: &[u32; 2]| Window::new(shut, again);
        Calendar {
            windows: windows.iter().map(window).collect(),
        }
    }

    pub fn is_open(&self, slot: u32) -> bool {
        !self.windows.iter().any(|window| window.holds(slot))
    }

    /// The number of open slots before a slot.
    pub fn open_before(&self, slot: u32) -> u32 {
        (0..slot).filter(|&slot| self.is_open(slot)).count() as u32
    }

    /// The first slot before which so many open slots stand.
    pub fn slot_after(&self, mut count: u32) -> u32 {
        let mut slot = 0;
        while count > 0 {
            count -= u32::from(self.is_open(slot));
            slot += 1;
        }
        slot
    }

    /// The slots that are shut.
    pub fn shut_slots(&self) -> impl Iterator<Item = u32> + '_ {
        self.windows
            .iter()
            .flat_map(|window| window.shut..window.again)
    }

    /// The bytes of the calendar.
    pub fn encode(&self) -> Vec<u8> {
        let length = CALENDAR_HEAD + WINDOW * self.windows.len();
        let mut bytes = (length as u32).to_be_bytes().to_vec();
        bytes.extend([1, self.windows.len() as u8]);
        for window in &self.windows {
            bytes.extend((window.shut as u16).to_be_bytes());
            bytes.extend((window.again as u16).to_be_bytes());
        }
        bytes
    }
}

/// Reads a calendar, or turns it down by 24.
pub fn read_calendar(bytes: &[u8]) -> Result<Calendar, Refusal> {
    let refused = Err(Refusal::of_all(24));
    if bytes.len() < CALENDAR_HEAD || be32(bytes, 0) as usize != bytes.len() || bytes[4] != 1 {
        return refused;
    }
    let count = bytes[5] as usize;
    if count > MOST_WINDOWS || bytes.len() != CALENDAR_HEAD + WINDOW * count {
        return refused;
    }
    let mut windows: Vec<Window> = Vec::with_capacity(count);
    for number in 0..count {
        let at = CALENDAR_HEAD + WINDOW * number;
        let window = Window::new(be16(bytes, at), be16(bytes, at + 2));
        if window.again <= window.shut || window.again > LAST_REOPENING {
            return refused;
        }
        if windows.last().is_some_and(|last| window.shut <= last.again) {
            return refused;
        }
        windows.push(window);
    }
    Ok(Calendar { windows })
}

/// The windows of a calendar where they lie, as pairs of the first slot shut and the
/// first slot open again; nothing where it breaks its layout. From one window to the
/// next all slots rise strictly, so a window's end is also a least beginning.
pub fn windows_in(bytes: &[u8]) -> Option<impl Iterator<Item = [usize; 2]> + Clone + '_> {
    let (head, windows) = bytes.split_first_chunk::<CALENDAR_HEAD>()?;
    let (windows, rest) = windows.as_chunks::<WINDOW>();
    let length = u32::try_from(bytes.len()).ok()?.to_be_bytes();
    let [a, b, c, d] = length;
    if *head != [a, b, c, d, 1, windows.len() as u8] || !rest.is_empty() || windows.len() > 32 {
        return None;
    }
    let pair = |&[a, b, c, d]: &[u8; WINDOW]| {
        [
            usize::from(u16::from_be_bytes([a, b])),
            usize::from(u16::from_be_bytes([c, d])),
        ]
    };
    let pairs = windows.iter().map(pair);
    // One more than the greatest slot so far; nothing is before the first window.
    let mut least = 0;
    for [shut, again] in pairs.clone() {
        if shut < least || again <= shut || again > 4_096 {
            return None;
        }
        least = again + 1;
    }
    Some(pairs)
}

/// The first slot before which twice as many open slots stand as before the deadline, by
/// a walk over the windows.
pub fn limit_in(windows: impl Iterator<Item = [usize; 2]> + Clone, deadline: usize) -> usize {
    let before = |[shut, again]: [usize; 2]| again.min(deadline) - shut.min(deadline);
    let shut_before: usize = windows.clone().map(before).sum();
    let mut limit = 2 * (deadline - shut_before);
    for [shut, again] in windows {
        // Equal: the last open slot is the one before the window.
        if limit <= shut {
            break;
        }
        limit += again - shut;
    }
    limit
}
