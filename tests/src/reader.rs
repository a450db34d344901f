//! Reads an order book of either version from bytes into plain structs, or turns
//! it down by one of the numbers 1 to 10 and 22 with its place.

use crate::answer::{Refusal, NONE};

/// Bytes of the book's head and of a job record.
pub const BOOK_HEAD: usize = 8;
pub const JOB_RECORD: usize = 14;

/// The most that each field may be; the least is 1 (0 for the flows). A cap may be
/// all that its two bytes can say.
pub const MOST_PROCESSORS: u32 = 4_096;
pub const MOST_FLOWS: usize = 64;
pub const MOST_DEADLINE: u32 = 4_096;
pub const MOST_JOBS: usize = 64;
pub const MOST_SIZE: u32 = 1_000_000;
pub const MOST_CAP: u32 = 65_535;

/// One job: size in processor-slots, cap as it stands in the book, and the jobs
/// that precede it.
#[derive(Clone, Copy, Debug, PartialEq, Eq)]
pub struct Job {
    pub size: u32,
    pub cap: u32,
    pub precedence: u64,
}

impl Job {
    /// The cap as it is used on P processors.
    pub fn cap_in_use(&self, processors: u32) -> u32 {
        cap_in_use(self.cap, processors)
    }
}

/// A cap above P counts as P. This is the one place where a cap is lowered.
#[inline]
pub fn cap_in_use(cap: u32, processors: u32) -> u32 {
    cap.min(processors)
}

/// One flow: deadline and release in slots, and its jobs.
#[derive(Clone, Debug, PartialEq, Eq)]
pub struct Flow {
    pub deadline: u32,
    pub release: u32,
    pub jobs: Vec<Job>,
}

impl Flow {
    /// A flow that may begin at once, as every flow of a version 1 book.
    pub fn new(deadline: u32, jobs: Vec<Job>) -> Flow {
        Flow {
            deadline,
            release: 0,
            jobs,
        }
    }
}

/// The versions of a book.
#[derive(Clone, Copy, Debug, PartialEq, Eq)]
pub enum Version {
    /// No releases: each is 0.
    One,
    /// A release after the deadline of each flow.
    Two,
}

pub const VERSIONS: [Version; 2] = [Version::One, Version::Two];

impl Version {
    pub fn of_byte(byte: u8) -> Option<Version> {
        match byte {
            1 => Some(Version::One),
            2 => Some(Version::Two),
            _ => None,
        }
    }

    pub fn byte(self) -> u8 {
        match self {
            Version::One => 1,
            Version::Two => 2,
        }
    }

    /// The numbers by which a book of the version is turned down.
    pub fn faults(self) -> &'static [u8] {
        match self {
            Version::One => &[1, 2, 3, 4, 5, 6, 7, 8, 9, 10],
            Version::Two => &[1, 2, 3, 4, 5, 6, 7, 8, 9, 10, 22],
        }
    }

    /// Bytes of a flow's head. The last of them is the job count.
    pub fn flow_head(self) -> usize {
        match self {
            Version::One => 3,
            Version::Two => 5,
        }
    }

    /// The release that a flow's head stands for.
    pub fn release(self, head: &[u8]) -> u32 {
        match self {
            Version::One => 0,
            Version::Two => be16(head, 2),
        }
    }
}

/// An order book that passed its checks.
#[derive(Clone, Debug, PartialEq, Eq)]
pub struct Book {
    pub version: Version,
    pub processors: u32,
    pub flows: Vec<Flow>,
}

impl Book {
    /// A version 1 book.
    pub fn new(processors: u32, flows: Vec<Flow>) -> Book {
        Book {
            version: Version::One,
            processors,
            flows,
        }
    }

    /// The flows by deadline, equal deadlines by place in the book.
    pub fn service_order(&self) -> Vec<usize> {
        let mut order: Vec<usize> = (0..self.flows.len()).collect();
        order.sort_by_key(|&flow| (self.flows[flow].deadline, flow));
        order
    }
}

/// The jobs that a precedence field names, lowest first.
pub fn predecessors(precedence: u64) -> impl Iterator<Item = usize> {
    let mut rest = precedence;
    std::iter::from_fn(move || {
        if rest == 0 {
            return None;
        }
        let job = rest.trailing_zeros() as usize;
        rest &= rest - 1;
        Some(job)
    })
}

#[inline]
pub fn be16(bytes: &[u8], at: usize) -> u32 {
    u32::from(u16::from_be_bytes([bytes[at], bytes[at + 1]]))
}

#[inline]
pub fn be32(bytes: &[u8], at: usize) -> u32 {
    u32::from_be_bytes([bytes[at], bytes[at + 1], bytes[at + 2], bytes[at + 3]])
}

#[inline]
pub fn be64(bytes: &[u8], at: usize) -> u64 {
    u64::from(be32(bytes, at)) << 32 | u64::from(be32(bytes, at + 4))
}

/// Reads a whole book. A head or record must be there whole before any of its
/// fields is looked at.
pub fn read_book(bytes: &[u8]) -> Result<Book, Refusal> {
    if bytes.len() < BOOK_HEAD || be32(bytes, 0) as usize != bytes.len() {
        return Err(Refusal::of_all(1));
    }
    let Some(version) = Version::of_byte(bytes[4]) else {
        return Err(Refusal::of_all(2));
    };
    let processors = be16(bytes, 5);
    if !(1..=MOST_PROCESSORS).contains(&processors) {
        return Err(Refusal::of_all(3));
    }
    let flow_count = bytes[7];
    if flow_count as usize > MOST_FLOWS {
        return Err(Refusal::of_all(4));
    }
    let mut flows = Vec::with_capacity(flow_count as usize);
    let mut at = BOOK_HEAD;
    for flow in 0..flow_count {
        if bytes.len() - at < version.flow_head() {
            return Err(Refusal::new(5, flow, NONE));
        }
        let head = &bytes[at..at + version.flow_head()];
        let deadline = be16(head, 0);
        let release = version.release(head);
        let job_count = head[head.len() - 1];
        at += head.len();
        if !(1..=MOST_DEADLINE).contains(&deadline) {
            return Err(Refusal::new(6, flow, NONE));
        }
        if release >= deadline {
            return Err(Refusal::new(22, flow, NONE));
        }
        if !(1..=MOST_JOBS).contains(&(job_count as usize)) {
            return Err(Refusal::new(7, flow, NONE));
        }
        let mut jobs = Vec::with_capacity(job_count as usize);
        for job in 0..job_count {
            if bytes.len() - at < JOB_RECORD {
                return Err(Refusal::new(5, flow, job));
            }
            let size = be32(bytes, at);
            let cap = be16(bytes, at + 4);
            let precedence = be64(bytes, at + 6);
            at += JOB_RECORD;
            if !(1..=MOST_SIZE).contains(&size) {
                return Err(Refusal::new(8, flow, job));
            }
            if cap == 0 {
                return Err(Refusal::new(9, flow, job));
            }
            if precedence >> job != 0 {
                return Err(Refusal::new(10, flow, job));
            }
            jobs.push(Job {
                size,
                cap,
                precedence,
            });
        }
        flows.push(Flow {
            deadline,
            release,
            jobs,
        });
    }
    if at != bytes.len() {
        return Err(Refusal::of_all(5));
    }
    Ok(Book {
        version,
        processors,
        flows,
    })
}
