//! The slack form, which tells of an accepted sheet how much its charter leaves over: the entries of the interface, with the needed and
//! the granted sum for each group that an entry discloses into.

use crate::permissions::write_list;
use crate::Judged;

/// The stored form: of each entry the kind, the path, the purpose and the permission map as in the interface, then the list with both sums.
pub fn write(accepted: &Judged) -> Vec<u8> {
    let mut out = Vec::new();
    for (entry, verdict) in accepted.entries() {
        entry.write_head(&accepted.sheet, &mut out);
        out.push(entry.permissions.map());
        write_list(verdict.disclose.iter().map(|(&group, sums)| (group, [sums.needed, sums.granted])), &mut out);
    }
    out
}
