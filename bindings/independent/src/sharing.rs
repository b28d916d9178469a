//! Components that share one count, their paths having the same groups in any order and their purposes being one, and what they need
//! together.

use crate::permissions::{ByKind, Permissions};
use crate::sheet::Component;

/// For each component its class: the number of the first component with its purpose whose path has the same groups. Those of one class
/// share a count.
pub fn classes(components: &[Component]) -> Vec<usize> {
    let keys: Vec<(u64, u8)> = components.iter().map(|component| (groups(&component.path), component.purpose)).collect();
    let first = |key: &(u64, u8)| keys.iter().position(|other| other == key).expect("a key is equal to itself");
    keys.iter().map(first).collect()
}

/// A path's groups as bits, which forget their order.
fn groups(path: &[u8]) -> u64 {
    path.iter().fold(0, |set, group| set | 1 << group)
}

/// What the components of each class need together, at the class's number; `needs` gives component, kind and permissions.
pub fn sums<'p>(classes: &[usize], needs: impl Iterator<Item = (usize, u8, &'p Permissions)>) -> Vec<ByKind> {
    let mut sums = vec![ByKind::new(); classes.len()];
    for (component, kind, permissions) in needs {
        sums[classes[component]].entry(kind).or_default().join(permissions);
    }
    sums
}
