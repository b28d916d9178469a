//! Generates the charters that a case's is compared with: one on the way to a stricter one, one on the way to a looser one, either now and
//! then aside of it, damaged, or of its own.

use crate::random::Random;
use crate::steps::{aside, step, Toward};
use crate::{damage, growing};
use independent::charter;

/// A stricter charter and a looser one, or what was meant to be.
pub fn around(random: &mut Random, charter: &[u8]) -> [Vec<u8>; 2] {
    [Toward::Stricter, Toward::Looser].map(|toward| other(random, charter, toward))
}

fn other(random: &mut Random, charter: &[u8], toward: Toward) -> Vec<u8> {
    let mut bytes = match random.below(100) {
        0..=1 => growing::charter(random).write(),
        2 => damage::noise(random),
        _ => changed(random, charter, toward),
    };
    if random.chance(4) {
        damage::damage(random, &mut bytes);
    }
    bytes
}

/// The charter after a few steps, the first of them aside now and then; one that does not read as it is.
fn changed(random: &mut Random, charter: &[u8], toward: Toward) -> Vec<u8> {
    let Ok(mut charter) = charter::read(charter) else { return charter.to_vec() };
    if random.chance(45) {
        aside(random, &mut charter, toward);
    }
    (0..random.below(5)).for_each(|_| step(random, &mut charter, toward));
    charter.write()
}
