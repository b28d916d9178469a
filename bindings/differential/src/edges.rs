//! Sheets and charters around the limits of documents 01 and 02: lengths, in the new form and in the old one, nesting, names, components,
//! purposes, threads, nodes; large shared counts and large grants.

use crate::random::Random;

/// A sheet and a charter near one limit.
pub fn edge(random: &mut Random) -> (Vec<u8>, Vec<u8>) {
    let step = random.below(4);
    match random.below(18) {
        0 => (nested(&[3, 0, 0], 62 + step), vec![0]),
        1 => (nested(&[1], 62 + step).into_iter().chain(vec![0; 62 + step]).collect(), vec![0]),
        2 => (components(31 + step, &[4, 0, last_purposes(random), 0]), vec![0]),
        3 => (threads(62 + step), vec![0]),
        4 => (new_names(random.between(1022, 1025)), vec![0]),
        5 => (groups(6 + step), vec![0]),
        6 => (vec![0, 0], wide_charter(random, 62 + step)),
        7 => (vec![0, 0], with_last_node(random, deep_charter(6 + step))),
        8 => (padded(4094 + step), vec![0]),
        9 => (vec![0, 0], padded(4094 + step)),
        10 => long_path(random, 6 + step),
        11 => shared_count(random),
        12 => large_grants(random),
        13 => purposes_and_maps(random),
        14 => both_forms_long(random),
        15..=16 => (vec![0, 0], long_charter(random)),
        _ => (bound_names(61 + step), vec![1, 0, 0, 0x17, 1, 0, 255, 255, 0]),
    }
}

/// No free names, a form so many times nested, and nothing inside.
fn nested(form: &[u8], times: usize) -> Vec<u8> {
    let mut out = vec![0];
    (0..times).for_each(|_| out.extend_from_slice(form));
    out.push(0);
    out
}

/// So many systems side by side.
fn components(count: usize, component: &[u8]) -> Vec<u8> {
    let mut out = vec![0];
    parallel(&mut out, count, component);
    out
}

/// A form so many times in parallel, as evenly nested as can be.
pub fn parallel(out: &mut Vec<u8>, count: usize, text: &[u8]) {
    if count <= 1 {
        return out.extend_from_slice(text);
    }
    out.push(1);
    parallel(out, count / 2, text);
    parallel(out, count - count / 2, text);
}

/// The last purposes, and now and then a byte just above them.
fn last_purposes(random: &mut Random) -> u8 {
    if random.chance(80) { random.pick(&[0, 14, 15]) } else { 16 }
}

/// One component with so many repeats.
fn threads(count: usize) -> Vec<u8> {
    let mut out = vec![0, 4, 0, 0];
    parallel(&mut out, count, &[7, 0]);
    out
}

/// So many new names in chains side by side.
fn new_names(count: usize) -> Vec<u8> {
    let mut out = vec![0];
    let mut left = count;
    while left > 0 {
        let chain = left.min(40);
        left -= chain;
        if left > 0 {
            out.push(1);
        }
        (0..chain).for_each(|_| out.extend_from_slice(&[3, 0, 0]));
        out.push(0);
    }
    out
}

fn groups(count: usize) -> Vec<u8> {
    let mut out = vec![0];
    (0..count).for_each(|group| out.extend_from_slice(&[2, group as u8]));
    out.push(0);
    out
}

/// A component whose path has so many groups, with one act, and a charter that grants the path nothing.
fn long_path(random: &mut Random, groups: usize) -> (Vec<u8>, Vec<u8>) {
    let mut sheet = vec![3, 2, 0, 1, 15, 1, 1, 15, 0, 15];
    let mut charter = vec![1, 15];
    for group in 0..groups {
        let last = group + 1 == groups;
        sheet.extend_from_slice(&[if last { 4 } else { 2 }, group as u8]);
        charter.extend_from_slice(&[group as u8, 0, !last as u8]);
    }
    let acts: [&[u8]; 4] = [&[5, 1, 0, 15, 0], &[6, 1, 2, 0], &[5, 0, 1, 1, 15, 0], &[6, 0, 1, 0]];
    sheet.push(random.below(16) as u8);
    sheet.extend_from_slice(random.pick(&acts));
    (sheet, charter)
}

/// Many components of one path, or of its two orders, that disclose equally often for a few purposes in turn, and a charter whose count is
/// about the sum of those of one purpose.
fn shared_count(random: &mut Random) -> (Vec<u8>, Vec<u8>) {
    let (components, times, purposes) = (random.between(2, 32), random.between(1, 38), random.pick(&[1, 1, 2, 3, 16]));
    let paths: [[u8; 4]; 2] = [[2, 0, 4, 1], random.pick(&[[2, 0, 4, 1], [2, 1, 4, 0]])];
    let mut sheet = vec![2, 2, 0, 0, 0, 1, 0, 0];
    for number in 0..components {
        sheet.extend_from_slice(if number + 1 < components { &[1] } else { &[] });
        sheet.extend_from_slice(&paths[number % 2]);
        sheet.push((number % purposes) as u8);
        (0..times).for_each(|_| sheet.extend_from_slice(&[6, 0, 1]));
        sheet.push(0);
    }
    let [low, high] = ((components.div_ceil(purposes) * times + random.below(3)) as u16 - 1).to_le_bytes();
    (sheet, vec![1, 0, 0, 0, 1, 1, 0x10, 1, 0, low, high, 0])
}

/// A component with any purpose and one act, and a charter whose two nodes grant it for all purposes, none, that one or others. Now and
/// then the component's group is not new, or a map has a bit that none may have.
fn purposes_and_maps(random: &mut Random) -> (Vec<u8>, Vec<u8>) {
    let purpose = random.pick(&[0, 1, 7, 8, 9, 14, 15, 15, 16]);
    let mut sheet = vec![3, 2, 0, 0, 0, 1, 0, 0, 0, 0, 2, 0, 4, random.chance(85) as u8, purpose];
    let acts: [(u8, &[u8]); 4] = [(1, &[5, 1, 0, 0, 0]), (2, &[6, 1, 2, 0]), (4, &[5, 0, 1, 0, 0, 0]), (16, &[6, 0, 1, 0])];
    let (flag, act) = random.pick(&acts);
    sheet.extend_from_slice(act);
    let mut charter = vec![1, 0];
    for group in 0..2 {
        let own = 1u16.checked_shl(purpose.into()).unwrap_or(0);
        let map = random.pick(&[None, Some(0xffff), Some(0), Some(own), Some(!own), Some(own.rotate_left(1)), Some(own.swap_bytes())]);
        let list: &[u8] = if flag == 16 { &[1, 0, 1, 0] } else { &[] };
        let stored = map.map_or(Vec::new(), |map: u16| map.to_le_bytes().to_vec());
        let beyond = if random.chance(5) { random.pick(&[0x40, 0x80]) } else { 0 };
        charter.extend([&[group, flag | (map.is_some() as u8) << 5 | beyond], list, &stored, &[1 - group]].concat());
    }
    (sheet, charter)
}

/// A component that discloses once or without limit, and a charter that gives each group of its path a large count, or now and then none.
fn large_grants(random: &mut Random) -> (Vec<u8>, Vec<u8>) {
    let (mut sheet, mut charter) = (vec![2, 2, 0, 0, 0, 1, 0, 0], vec![1, 0]);
    let groups = random.between(1, 8) as u8;
    for group in 0..groups {
        let last = group + 1 == groups;
        sheet.extend_from_slice(&[if last { 4 } else { 2 }, group]);
        let list: &[u8] = random.pick(&[&[16, 1, 0, 255, 15], &[16, 1, 0, 255, 15], &[16, 1, 0, 254, 15], &[16, 1, 0, 255, 255], &[0]]);
        charter.extend([&[group], list, &[!last as u8]].concat());
    }
    let acts: [&[u8]; 3] = [&[6, 0, 1, 0], &[6, 0, 1, 0], &[7, 6, 0, 1, 0]];
    sheet.push(random.below(16) as u8);
    sheet.extend_from_slice(random.pick(&acts));
    (sheet, charter)
}

/// Components that disclose side by side, now and then one of them with another purpose than 0: the new form or the old one has about 4,096
/// bytes. A third free name makes up the length.
fn both_forms_long(random: &mut Random) -> (Vec<u8>, Vec<u8>) {
    let components = random.between(1, 32);
    let length = random.between(4095, 4097) + random.pick(&[0, 1, components]);
    let sends = (length - 9 - 3 * components) / 5;
    let spare = length - 7 - 3 * components - 5 * sends;
    let mut sheet = vec![3, 2, 0, 0, 0, 1, 0, 0, spare as u8 - 2];
    sheet.extend(vec![0; spare - 1]);
    for number in 0..components {
        sheet.extend_from_slice(if number + 1 < components { &[1] } else { &[] });
        sheet.extend_from_slice(&[4, 0, (random.below(200) == 0) as u8]);
        parallel(&mut sheet, sends * (number + 1) / components - sends * number / components, &[6, 0, 1, 0]);
    }
    (sheet, vec![1, 0, 0, 0x10, 1, 0, 255, random.pick(&[0, 15, 255]), 0])
}

/// Names bound by receives until so many are in scope.
fn bound_names(count: usize) -> Vec<u8> {
    let mut out = vec![32, 1, 0, 0];
    out.extend_from_slice(&[0; 62]);
    out.extend_from_slice(&[4, 0, 0]);
    (32..count).for_each(|_| out.extend_from_slice(&[5, 0, 0, 0]));
    out.push(0);
    out
}

/// A root and children, so many nodes in all, with a map of purposes at each child or at none, and the last more often than not another.
fn wide_charter(random: &mut Random, nodes: usize) -> Vec<u8> {
    let maps: [&[u8]; 5] = [&[0], &[0x20, 0xff, 0xff], &[0x20, 1, 0], &[0x20, 1, 0x80], &[0x20, 0, 0x80]];
    let map = random.pick(&maps);
    let mut out = vec![1, 0, 0, 0, nodes as u8 - 1];
    (2..nodes).for_each(|_| out.extend([&[1], map, &[0]].concat()));
    let (group, last) = if random.chance(60) { (random.below(2) as u8, random.pick(&maps)) } else { (1, map) };
    out.extend([&[group], last, &[0]].concat());
    out
}

/// A charter that reads, of 4,094, 4,096 or 4,097 bytes: a root and 20 children with a count for each group, the last for fewer and with
/// purposes or without.
fn long_charter(random: &mut Random) -> Vec<u8> {
    let lasts: [(u8, &[u8]); 4] = [(56, &[]), (56, &[1, 0x80]), (56, &[0xff, 0xff]), (57, &[])];
    let last = random.pick(&lasts);
    let mut out = vec![1, 0];
    for group in 0..21 {
        let (items, purposes) = if group < 20 { (64, &[][..]) } else { last };
        out.extend([group, if purposes.is_empty() { 0x10 } else { 0x30 }, items]);
        (0..items).for_each(|into| out.extend([into, random.byte(), random.between(1, 15) as u8]));
        out.extend([purposes, &[if group == 0 { 20 } else { 0 }]].concat());
    }
    out
}

/// Nodes nested so many deep.
fn deep_charter(levels: usize) -> Vec<u8> {
    let mut out = vec![1, 0];
    (0..levels).for_each(|level| out.extend_from_slice(&[level as u8, 0, (level + 1 < levels) as u8]));
    out
}

/// The charter, more often than not with a last node of the first or second group read, and with the map that it has there or another.
fn with_last_node(random: &mut Random, mut charter: Vec<u8>) -> Vec<u8> {
    if random.chance(60) {
        let at = charter.len() - 3;
        charter[at] = random.below(2) as u8;
        charter[at + 1] = random.pick(&[0, 2]);
    }
    charter
}

fn padded(length: usize) -> Vec<u8> {
    vec![0; length]
}
