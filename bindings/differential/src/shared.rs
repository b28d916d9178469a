//! What of shared counts a sheet and its charter's answer meet: for the totals, found without the sums of the independent implementation.

use crate::classes::Class;
use independent::charter::Charter;
use independent::cover;
use independent::permissions::{Count, Permissions};

/// What is worth counting of a sheet's shared counts; nothing where no two components of a class disclose into one group.
pub fn met(classes: &[Class]) -> Vec<&'static str> {
    let shared = shared(classes);
    let one_path = |class: &Class| class.components.iter().all(|component| component.path == class.path());
    let told = [
        (true, "all"),
        (shared.iter().any(|(class, _)| one_path(class)), "of one path"),
        (shared.iter().any(|(class, _)| !one_path(class)), "in several orders"),
        (shared.iter().any(|&(class, group)| mixed(class, group)), "finite and unlimited"),
        (shared.iter().any(|&(class, group)| beside_larger(class, group, classes)), "beside a larger set"),
    ];
    told.into_iter().filter(|(holds, _)| *holds && !shared.is_empty()).map(|(_, what)| what).collect()
}

/// What is worth counting of the answer to question 18, which passes or fails, where counts are shared.
pub fn answered(charter: &Charter, classes: &[Class], passes: bool) -> Vec<&'static str> {
    let shared = shared(classes);
    let granted = |class: &Class, group: u8| cover::grant(charter, class.components[0], class.kind).count(group);
    let over = |n: u32| shared.iter().any(|&(class, group)| class.needs.count(group) == granted(class, group).plus(Count::Finite(n)));
    let finite = shared.iter().any(|(class, group)| class.needs.count(*group) != Count::Unlimited);
    let alone = !passes && by_themselves(charter, classes);
    let told = [
        (passes, "accepted"),
        (passes && finite && over(0), "accepted, no link to spare"),
        (alone, "refused by a sum alone"),
        (alone && over(1), "refused by a sum alone, one link too many"),
    ];
    told.into_iter().filter(|(holds, _)| *holds && !shared.is_empty()).map(|(_, what)| what).collect()
}

/// Each class with each group that several of its entries disclose into.
fn shared<'c, 'a>(classes: &'c [Class<'a>]) -> Vec<(&'c Class<'a>, u8)> {
    classes.iter().flat_map(|class| class.shared().into_iter().map(move |group| (class, group))).collect()
}

/// Whether some entry's count is finite and the sum is not.
fn mixed(class: &Class, group: u8) -> bool {
    let finite = |permissions: &Permissions| matches!(permissions.disclose.get(&group), Some(Count::Finite(_)));
    class.needs.count(group) == Count::Unlimited && class.entries.iter().any(|entry| finite(&entry.permissions))
}

/// Whether a class of the same kind and purpose with all its groups and more discloses into the group too.
fn beside_larger(class: &Class, group: u8, classes: &[Class]) -> bool {
    let (own, alike) = (class.groups(), |other: &Class| (other.kind, other.purpose()) == (class.kind, class.purpose()));
    classes.iter().filter(|other| alike(other)).any(|other| {
        let larger = other.path().len() > own.len() && own.iter().all(|group| other.path().contains(group));
        larger && other.needs.disclose.contains_key(&group)
    })
}

/// Whether each entry by itself is covered by its grant.
fn by_themselves(charter: &Charter, classes: &[Class]) -> bool {
    classes.iter().all(|class| {
        let grant = cover::grant(charter, class.components[0], class.kind);
        class.entries.iter().all(|entry| entry.permissions.within(&grant))
    })
}
