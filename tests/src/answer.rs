//! The answers of the table check, of the planner, of the dispatch list and of the
//! finish of one flow, laid out as in C.

/// Stands in the place of a refusal where there is no flow or job.
pub const NONE: u8 = 255;

/// Bytes of the work area that are used: two for each of the slots 0 to 8,191.
pub const WORK_BYTES: usize = 16_384;

/// Slots that a table can name.
pub const SLOTS: usize = 8_192;

/// One more than the greatest number that is answered.
pub const NUMBERS: usize = 26;

/// A refusal number with its place.
#[derive(Clone, Copy, Debug, PartialEq, Eq)]
pub struct Refusal {
    pub number: u8,
    pub flow: u8,
    pub job: u8,
}

impl Refusal {
    pub fn new(number: u8, flow: u8, job: u8) -> Refusal {
        Refusal { number, flow, job }
    }

    /// A refusal that names no flow and no job.
    pub fn of_all(number: u8) -> Refusal {
        Refusal::new(number, NONE, NONE)
    }
}

/// What the table check answers.
#[repr(C)]
#[derive(Clone, Copy, Debug, PartialEq, Eq)]
pub struct CheckAnswer {
    pub number: u8,
    pub flow: u8,
    pub job: u8,
    pub late: u8,
}

impl CheckAnswer {
    pub fn accepted(late: u8) -> CheckAnswer {
        CheckAnswer {
            number: 0,
            flow: NONE,
            job: NONE,
            late,
        }
    }

    pub fn refused(refusal: Refusal) -> CheckAnswer {
        CheckAnswer {
            number: refusal.number,
            flow: refusal.flow,
            job: refusal.job,
            late: 0,
        }
    }
}

/// What the planner answers.
#[repr(C)]
#[derive(Clone, Copy, Debug, PartialEq, Eq)]
pub struct PlanAnswer {
    pub number: u8,
    pub flow: u8,
    pub job: u8,
    pub late: u8,
    pub length: u32,
}

impl PlanAnswer {
    pub fn accepted(late: u8, length: u32) -> PlanAnswer {
        PlanAnswer {
            number: 0,
            flow: NONE,
            job: NONE,
            late,
            length,
        }
    }

    pub fn refused(refusal: Refusal) -> PlanAnswer {
        PlanAnswer {
            number: refusal.number,
            flow: refusal.flow,
            job: refusal.job,
            late: 0,
            length: 0,
        }
    }
}

/// What the dispatch list answers.
#[repr(C)]
#[derive(Clone, Copy, Debug, PartialEq, Eq)]
pub struct ListAnswer {
    pub number: u8,
    pub flow: u8,
    pub job: u8,
    pub length: u32,
}

impl ListAnswer {
    pub fn accepted(length: u32) -> ListAnswer {
        ListAnswer {
            number: 0,
            flow: NONE,
            job: NONE,
            length,
        }
    }

    pub fn refused(refusal: Refusal) -> ListAnswer {
        ListAnswer {
            number: refusal.number,
            flow: refusal.flow,
            job: refusal.job,
            length: 0,
        }
    }
}

/// What the finish of one flow answers.
#[repr(C)]
#[derive(Clone, Copy, Debug, PartialEq, Eq)]
pub struct FinishAnswer {
    pub number: u8,
    pub flow: u8,
    pub job: u8,
    pub finish: u16,
}

impl FinishAnswer {
    pub fn accepted(finish: u16) -> FinishAnswer {
        FinishAnswer {
            number: 0,
            flow: NONE,
            job: NONE,
            finish,
        }
    }

    pub fn refused(refusal: Refusal) -> FinishAnswer {
        FinishAnswer {
            number: refusal.number,
            flow: refusal.flow,
            job: refusal.job,
            finish: 0,
        }
    }
}
