//! What of purposes a sheet and its charter's answer meet: for the totals.

use crate::charters::each_node;
use crate::classes::Class;
use independent::charter::{Charter, Node};
use independent::cover;
use independent::sheet::Sheet;
use independent::Judged;

/// What is worth counting of the purposes of a sheet.
pub fn met(sheet: &Sheet, classes: &[Class]) -> Vec<&'static str> {
    let purposes: Vec<u8> = sheet.components.iter().map(|component| component.purpose).collect();
    let told = [
        (purposes.iter().any(|&purpose| purpose != 0), "all"),
        (purposes.iter().any(|&purpose| purpose > 7), "above 7"),
        (purposes.iter().any(|&purpose| purpose != purposes[0]), "several"),
        (classes.iter().any(|class| !others(class, classes).is_empty()), "one path and kind, several purposes"),
    ];
    told.into_iter().filter(|(holds, _)| *holds).map(|(_, what)| what).collect()
}

/// The classes of the same kind and groups with another purpose.
fn others<'c, 'a>(class: &Class, classes: &'c [Class<'a>]) -> Vec<&'c Class<'a>> {
    let alike = |other: &&Class| other.kind == class.kind && other.groups() == class.groups();
    classes.iter().filter(alike).filter(|other| other.purpose() != class.purpose()).collect()
}

/// What is worth counting of the answer of a charter with maps to a sheet that was asked 18.
pub fn answered(judged: &Judged, classes: &[Class]) -> Vec<&'static str> {
    let passes = judged.uncovered().is_none();
    let mut without = judged.charter.clone();
    let mut maps = Vec::new();
    without.trees.iter_mut().for_each(|tree| each_node(&mut tree.root, &mut |node| maps.extend(node.purposes.take())));
    let alone = !passes && covered_by(judged, &without);
    let told = [
        (!maps.is_empty(), "with maps"),
        (passes && !maps.is_empty(), "with maps, accepted"),
        (passes && classes.iter().any(|class| partly(class, &judged.charter)), "accepted, some groups of a path do not serve"),
        (passes && classes.iter().any(|class| together_too_many(class, classes, &judged.charter)), "accepted, too many for one purpose"),
        (alone, "refused by purposes alone"),
    ];
    told.into_iter().filter(|(holds, _)| *holds).map(|(_, what)| what).collect()
}

/// Whether another charter covers what a sheet's entries need.
fn covered_by(judged: &Judged, charter: &Charter) -> bool {
    let verdicts = cover::verdicts(&judged.sheet, charter, &judged.interface);
    verdicts.is_ok_and(|verdicts| verdicts.iter().all(|verdict| verdict.uncovered().is_none()))
}

/// Whether some groups of a class's path grant for its purpose, and others do not.
fn partly(class: &Class, charter: &Charter) -> bool {
    let mut answers = Vec::new();
    let in_path = |node: &Node| class.path().contains(&node.group);
    charter.tree(class.kind).expect("a tree for each kind").root.visit(&mut |node| {
        if in_path(node) {
            answers.push(node.serves(class.purpose()));
        }
    });
    answers.contains(&true) && answers.contains(&false)
}

/// Whether a class and those of its kind and groups with other purposes disclose together more than the class is granted.
fn together_too_many(class: &Class, classes: &[Class], charter: &Charter) -> bool {
    let mut needs = class.needs.clone();
    others(class, classes).iter().for_each(|other| needs.join(&other.needs));
    let grant = cover::grant(charter, class.components[0], class.kind);
    class.needs.disclose.keys().any(|&group| needs.count(group) > grant.count(group))
}
