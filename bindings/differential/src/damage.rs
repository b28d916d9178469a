//! Damages bytes: flips, cuts, insertions, removals; and makes random ones.

use crate::random::Random;

/// Damages bytes in one to three places.
pub fn damage(random: &mut Random, bytes: &mut Vec<u8>) {
    for _ in 0..random.between(1, 3) {
        damage_once(random, bytes);
    }
}

fn damage_once(random: &mut Random, bytes: &mut Vec<u8>) {
    let at = random.below(bytes.len() + 1);
    let inserted = if random.chance(70) { random.below(8) as u8 } else { random.byte() };
    if at == bytes.len() || random.chance(25) {
        return bytes.insert(at, inserted);
    }
    match random.below(6) {
        0 => bytes[at] ^= 1 << random.below(8),
        1 => bytes[at] = inserted,
        2 => bytes[at] = bytes[at].wrapping_add(1),
        3 => bytes[at] = bytes[at].wrapping_sub(1),
        4 => bytes.truncate(at),
        _ => drop(bytes.remove(at)),
    }
}

/// Random bytes, small ones more often.
pub fn noise(random: &mut Random) -> Vec<u8> {
    let length = random.below(60);
    let limit = random.pick(&[2, 8, 64, 256]);
    (0..length).map(|_| random.below(limit) as u8).collect()
}
