//! Which question a charter is refused with where several of 12 to 15 fail.
mod society;

use society::bytes;

/// Charters, under an empty sheet, and what `check` answers.
const CASES: &[(&str, Result<usize, u32>)] = &[
    // At one node 14 goes before 13: the same permissions, another map, another count.
    ("01 00 00 00 01 00 00 00", Err(13)),
    ("01 00 00 00 01 00 01 00", Err(14)),
    ("01 00 00 10 01 05 01 00 01 00 10 01 05 02 00 00", Err(14)),
    // The first node decides: group 1 twice, side by side, then 0 below itself; and the other way round.
    ("01 00 00 00 03 01 00 00 01 01 00 00 00 00", Err(14)),
    ("01 00 00 00 03 00 00 00 01 00 00 01 01 00", Err(13)),
    // It is the lower of two nodes that fails 13, and the later that fails 14.
    ("01 00 00 00 03 01 00 00 01 01 00 02 00 01 00 00 00", Err(14)),
    ("01 00 00 00 03 01 00 01 00 00 00 01 01 00 02 00 00", Err(13)),
    // Below a first child before the second child.
    ("01 00 00 00 03 01 00 00 02 00 01 00 00 00 01 01 00", Err(13)),
    ("01 00 00 00 03 01 00 00 02 00 01 01 01 00 00 00 00", Err(14)),
    // Tree after tree, each by itself.
    ("02 00 00 00 02 01 01 00 01 02 00 01 00 00 01 00 00 00", Err(14)),
    ("02 01 00 00 01 00 00 00 00 00 00 02 01 01 00 01 02 00", Err(13)),
    ("02 00 00 00 00 01 00 01 00", Ok(0)),
    // 12 before and 15 after.
    ("02 00 00 00 01 00 01 00 00 00 00 00", Err(12)),
    ("02 00 00 08 01 01 10 01 05 01 00 00 01 00 00 01 00 00 00", Err(13)),
    ("02 00 00 08 01 01 10 01 05 01 00 00 01 00 00 01 00 01 00", Err(14)),
    ("02 00 00 08 01 01 10 01 05 01 00 00 01 00 00 00", Err(15)),
];

#[test]
fn first_fault_decides() {
    for (charter, answer) in CASES {
        assert_eq!(independent::check(&bytes("00 00"), &bytes(charter), &mut []), *answer, "{charter}");
    }
}
