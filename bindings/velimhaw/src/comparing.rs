//! The service that compares a charter with the one before it.

use crate::services::{bytes, Bytes};

extern "C" {
    fn velimhaw_no_looser(charter: Bytes, before: Bytes) -> u64;
}

/// Whether a charter is no looser than the one before it, so that whatever sheet it accepts, that one accepts. Both must have at most
/// [`CHARTER_MAX`](crate::CHARTER_MAX) bytes and pass 11 to 15, else the answer is no. Each tree of the charter must have one for its kind
/// before, with the same groups and children in the same order, and at each node: its flags, counts and purposes are within those before,
/// and nondisclose, where it stood before, still stands. A no does not say that some sheet newly passes.
pub fn no_looser(charter: &[u8], before: &[u8]) -> bool {
    // SAFETY: each slice is valid for its length for the time of the call. The function is proved for any bytes in both, and writes
    // nothing.
    unsafe { velimhaw_no_looser(bytes(charter), bytes(before)) == 1 }
}
