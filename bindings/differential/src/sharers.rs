//! Paths for components that share a count or nearly do: one path several times, its groups in another order, a larger or smaller set.

use crate::random::Random;

/// So many paths over some groups, of which each has the first.
pub fn paths(random: &mut Random, groups: &[u8], count: usize) -> Vec<Vec<u8>> {
    let size = random.between(1, groups.len().min(4));
    (0..count).map(|_| path(random, groups, size)).collect()
}

/// The first `size` groups, mostly; one more or one less now and then; in this order or another.
fn path(random: &mut Random, groups: &[u8], size: usize) -> Vec<u8> {
    let mut path = match random.below(10) {
        0..=1 if size < groups.len() => with_one_more(random, groups, size),
        2 if size > 1 => groups[..size - 1].to_vec(),
        _ => groups[..size].to_vec(),
    };
    if random.chance(35) {
        random.shuffle(&mut path);
    }
    path
}

fn with_one_more(random: &mut Random, groups: &[u8], size: usize) -> Vec<u8> {
    let more = random.pick(&groups[size..]);
    groups[..size].iter().copied().chain([more]).collect()
}
