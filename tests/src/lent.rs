//! Buffers lent to a call: a slice in the middle of junk, so that every byte
//! around and behind it can be compared after the call.

use crate::answer::WORK_BYTES;
use crate::rng::Rng;

const GUARD: usize = 64;

/// A pool of junk that buffers are filled from.
pub struct Junk {
    pool: Vec<u8>,
}

impl Junk {
    pub fn new(seed: u64) -> Junk {
        let mut pool = vec![0; 1 << 17];
        Rng::new(seed).fill(&mut pool);
        Junk { pool }
    }

    /// So many bytes of the pool, from a place on, in place of what `bytes` has.
    fn fill(&self, from: usize, length: usize, bytes: &mut Vec<u8>) {
        bytes.clear();
        bytes.reserve_exact(length);
        let mut from = from % self.pool.len();
        while bytes.len() < length {
            let step = (length - bytes.len()).min(self.pool.len() - from);
            bytes.extend_from_slice(&self.pool[from..from + step]);
            from = 0;
        }
    }
}

/// A length of a work area: none, too short, short by one, exact or longer.
pub fn work_length(rng: &mut Rng) -> usize {
    match rng.below(16) {
        0 => rng.pick(&[0, 1, 2, WORK_BYTES - 2, WORK_BYTES - 1]),
        1 => rng.skewed(0, WORK_BYTES as u64 - 1) as usize,
        2..=8 => WORK_BYTES,
        9..=12 => WORK_BYTES + 1 + rng.index(64),
        13..=14 => WORK_BYTES + 1,
        _ => WORK_BYTES + rng.index(5_000),
    }
}

/// A buffer with guards of at least 64 bytes on both sides. It starts at any
/// alignment.
#[derive(Clone, PartialEq, Eq)]
pub struct Lent {
    bytes: Vec<u8>,
    from: usize,
    length: usize,
}

impl Lent {
    /// A buffer of the length, all junk.
    pub fn junk(rng: &mut Rng, junk: &Junk, length: usize) -> Lent {
        Lent::junk_in(Vec::new(), rng, junk, length)
    }

    /// The same in memory that is at hand: a long buffer costs more to allocate than to
    /// fill.
    pub fn junk_in(mut bytes: Vec<u8>, rng: &mut Rng, junk: &Junk, length: usize) -> Lent {
        let from = GUARD + rng.index(8);
        junk.fill(rng.index(1 << 17), from + length + GUARD, &mut bytes);
        Lent {
            bytes,
            from,
            length,
        }
    }

    /// The memory, for another buffer.
    pub fn memory(self) -> Vec<u8> {
        self.bytes
    }

    /// A buffer that holds the given bytes, with junk around them.
    pub fn holding(rng: &mut Rng, junk: &Junk, content: &[u8]) -> Lent {
        let mut lent = Lent::junk(rng, junk, content.len());
        lent.slice().copy_from_slice(content);
        lent
    }

    pub fn slice(&mut self) -> &mut [u8] {
        &mut self.bytes[self.from..self.from + self.length]
    }

    pub fn len(&self) -> usize {
        self.length
    }

    pub fn is_empty(&self) -> bool {
        self.length == 0
    }

    /// The first byte of the slice in which another buffer differs.
    pub fn differs_at(&mut self, other: &mut Lent) -> Option<usize> {
        let mut pairs = self.slice().iter().zip(other.slice());
        pairs.position(|(one, other)| one != other)
    }

    pub fn pointer(&mut self) -> *mut u8 {
        self.slice().as_mut_ptr()
    }
}
