//! Flow heads with every kind of field, whole and cut at every byte, under every
//! version byte, each with the refusal that is owed; held against any planner
//! and any check.

use crate::answer::{Refusal, NONE};
use crate::books::fit_length;
use crate::marked::{not_checked, not_planned, table_a, Check, Planner};
use crate::reader::{Version, JOB_RECORD};

const VERSION_BYTES: [u8; 5] = [0, 1, 2, 3, 255];
const DEADLINES: [u16; 7] = [0, 1, 2, 3, 4_096, 4_097, 65_535];
const RELEASES: [u16; 9] = [0, 1, 2, 3, 4_095, 4_096, 4_097, 65_534, 65_535];
const JOBS: [u8; 6] = [0, 1, 2, 64, 65, 255];

/// The fields of a head.
#[derive(Clone, Copy)]
struct Head {
    deadline: u16,
    release: u16,
    jobs: u8,
}

impl Head {
    fn bytes(self, version: Version) -> Vec<u8> {
        let mut bytes = self.deadline.to_be_bytes().to_vec();
        if version == Version::Two {
            bytes.extend(self.release.to_be_bytes());
        }
        bytes.push(self.jobs);
        bytes
    }

    /// 6, 22, 7 of a head that is there whole.
    fn fault(self, version: Version) -> Option<u8> {
        if self.deadline == 0 || self.deadline > 4_096 {
            Some(6)
        } else if version == Version::Two && self.release >= self.deadline {
            Some(22)
        } else if self.jobs == 0 || self.jobs > 64 {
            Some(7)
        } else {
            None
        }
    }
}

/// A book of two flows under a version byte: one with a job, then `rest`.
fn book(version_byte: u8, version: Version, rest: &[u8]) -> Vec<u8> {
    let first = Head {
        deadline: 9,
        release: 8,
        jobs: 1,
    };
    let mut bytes = vec![0, 0, 0, 0, version_byte, 0, 3, 2];
    bytes.extend(first.bytes(version));
    bytes.extend([0, 0, 0, 1, 0, 1, 0, 0, 0, 0, 0, 0, 0, 0]);
    bytes.extend(rest);
    fit_length(&mut bytes);
    bytes
}

/// Every head in the place of flow 1, with the refusal owed to it: cut to each
/// length, whole with nothing behind it, and whole before a job of size 0.
fn each(mut hold: impl FnMut(&[u8], Refusal)) {
    for version_byte in VERSION_BYTES {
        let known = Version::of_byte(version_byte);
        let version = known.unwrap_or(Version::Two);
        let releases = match version {
            Version::One => &RELEASES[..1],
            Version::Two => &RELEASES[..],
        };
        let mut owed = |rest: &[u8], refusal| {
            let refusal = known.map_or(Refusal::of_all(2), |_| refusal);
            hold(&book(version_byte, version, rest), refusal);
        };
        for deadline in DEADLINES {
            for &release in releases {
                for jobs in JOBS {
                    let head = Head {
                        deadline,
                        release,
                        jobs,
                    };
                    let bytes = head.bytes(version);
                    for kept in 0..bytes.len() {
                        owed(&bytes[..kept], Refusal::new(5, 1, NONE));
                    }
                    let in_head = head.fault(version);
                    let in_head = in_head.map(|number| Refusal::new(number, 1, NONE));
                    owed(&bytes, in_head.unwrap_or(Refusal::new(5, 1, 0)));
                    let before_job = [&bytes[..], &[0; JOB_RECORD]].concat();
                    owed(&before_job, in_head.unwrap_or(Refusal::new(8, 1, 0)));
                }
            }
        }
    }
}

/// Holds the heads against a planner.
pub fn hold_planner(plan: Planner) {
    each(|book, refusal| not_planned(plan, book, 100, refusal));
}

/// Holds the heads against a check.
pub fn hold_check(check: Check) {
    let table = table_a();
    each(|book, refusal| not_checked(check, book, &table, refusal));
}
