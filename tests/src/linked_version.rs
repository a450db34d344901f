//! The version of the proved library as C sees it.

extern "C" {
    fn flowplan_version() -> u32;
}

/// Calls the proved library for its version.
pub fn version() -> u32 {
    // SAFETY: nothing is lent.
    unsafe { flowplan_version() }
}
