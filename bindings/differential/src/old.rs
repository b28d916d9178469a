//! Generates old sheets: mostly a new one without its purposes, now and then damaged, and random bytes.

use crate::damage;
use crate::random::Random;
use independent::dialect::Dialect;
use independent::sheet;

/// An old sheet for a case that has a new one.
pub fn old(random: &mut Random, new: &[u8]) -> Vec<u8> {
    if random.chance(3) {
        return damage::noise(random);
    }
    let mut old = sheet::read(new).map_or(new.to_vec(), |read| read.write(Dialect::Old));
    if random.chance(12) {
        damage::damage(random, &mut old);
    }
    old
}
