//! Generates names files: mostly ones that keep the rules, many names prefixes of each other; and ones that break a rule.

use crate::damage;
use crate::random::Random;
use independent::names::{Names, LONGEST};

/// The bytes of a names file.
pub fn names(random: &mut Random) -> Vec<u8> {
    let mut names = keeping(random);
    match random.below(100) {
        0..=13 => break_lists(random, &mut names),
        14..=27 => return break_bytes(random, names.write()),
        _ => {}
    }
    names.write()
}

/// The letters that a list's names are made of, and how many each has.
#[derive(Clone, Copy)]
struct Style {
    letters: &'static [u8],
    least: usize,
    most: usize,
}

const ALL: &[u8] = b"ABCDEFGHIJKLMNOPQRSTUVWXYZabcdefghijklmnopqrstuvwxyz";

const STYLES: [Style; 7] = [
    Style { letters: ALL, least: 1, most: LONGEST },
    Style { letters: ALL, least: 1, most: 2 },
    Style { letters: ALL, least: LONGEST, most: LONGEST },
    Style { letters: b"AZaz", least: 1, most: 4 },
    Style { letters: b"aA", least: 1, most: LONGEST },
    Style { letters: b"aA", least: LONGEST, most: LONGEST },
    Style { letters: b"ab", least: LONGEST - 1, most: LONGEST },
];

/// Words of the sentence, which are names like any other.
const WORDS: [&str; 7] = ["read", "write", "access", "disclose", "may", "not", "to"];

/// Names that keep the rules; now and then kinds have names of groups.
fn keeping(random: &mut Random) -> Names {
    let (style, other) = (random.pick(&STYLES), random.pick(&STYLES));
    let groups = list(random, style, 64);
    let shared = random.between(0, 48);
    let kinds = if random.chance(20) { groups[shared..shared + 16].to_vec() } else { list(random, other, 16) };
    Names { groups, kinds }
}

/// So many distinct names, all in one style or mixed with others.
fn list(random: &mut Random, style: Style, count: usize) -> Vec<String> {
    let mixed = random.chance(60);
    let mut names = Vec::new();
    while names.len() < count {
        let name = if mixed && random.chance(40) { other(random, style, &names) } else { letters(random, style) };
        if !names.contains(&name) {
            names.push(name);
        }
    }
    random.shuffle(&mut names);
    names
}

/// A name that is a word of the sentence, or another name longer or shorter by a letter.
fn other(random: &mut Random, style: Style, names: &[String]) -> String {
    let like = names.get(random.below(names.len() + 1)).map_or("", String::as_str);
    match random.below(4) {
        0 if (1..LONGEST).contains(&like.len()) => format!("{like}{}", random.pick(style.letters) as char),
        1 if like.len() > 1 => like[1..].to_string(),
        2 if like.len() > 1 => like[..like.len() - 1].to_string(),
        _ => random.pick(&WORDS).to_string(),
    }
}

/// A name in a style.
fn letters(random: &mut Random, style: Style) -> String {
    let length = random.between(style.least, style.most);
    (0..length).map(|_| random.pick(style.letters) as char).collect()
}

/// Breaks a rule of the lists: a name of no letters or of too many, a name twice, a name less or more.
fn break_lists(random: &mut Random, names: &mut Names) {
    match random.below(7) {
        0 => some_name(random, names).clear(),
        1 => {
            let letters = random.pick(&[LONGEST + 1, LONGEST + 2, 255, 256, 300]);
            *some_name(random, names) = "L".repeat(letters);
        }
        2 => repeat(random, &mut names.groups),
        3 => repeat(random, &mut names.kinds),
        4 => drop(some_list(random, names).pop()),
        5 => drop(some_list(random, names).remove(0)),
        _ => some_list(random, names).push("Additional".to_string()),
    }
}

fn some_list<'a>(random: &mut Random, names: &'a mut Names) -> &'a mut Vec<String> {
    if random.chance(50) { &mut names.groups } else { &mut names.kinds }
}

/// Any name, those at the ends of the lists more often.
fn some_name<'a>(random: &mut Random, names: &'a mut Names) -> &'a mut String {
    let list = some_list(random, names);
    let any = random.below(list.len());
    let at = random.pick(&[0, list.len() - 1, any, any]);
    &mut list[at]
}

/// Gives a name of a list to another place of it.
fn repeat(random: &mut Random, list: &mut [String]) {
    let one = random.below(list.len());
    let other = (one + random.between(1, list.len() - 1)) % list.len();
    list[other] = list[one].clone();
}

/// Bytes that are no letter, those next to the letters among them.
const OTHERS: [u8; 16] = [b'@', b'[', b'`', b'{', b'0', b'9', b' ', b'/', b':', b'-', 0x00, 0x09, 0x0b, 0x0d, 0xc1, 0xff];

/// Breaks a rule of the bytes: another byte than a letter or 0A, an end too many or missing, something after, too little, or any damage.
fn break_bytes(random: &mut Random, mut bytes: Vec<u8>) -> Vec<u8> {
    let at = random.below(bytes.len());
    match random.below(10) {
        0 => bytes[at] = random.pick(&OTHERS),
        1 => drop(bytes.splice(at..at, [random.pick(&OTHERS)])),
        2 => drop(bytes.splice(at..at, [0x0a])),
        3 => bytes.truncate(bytes.len() - 1),
        4 => bytes.push(random.pick(&[0x00, 0x0a, 0x0d, b'a', b'Z'])),
        5 => carriage_return(random, &mut bytes),
        6 => bytes.truncate(at),
        7 => bytes.clear(),
        8 => return damage::noise(random),
        _ => damage::damage(random, &mut bytes),
    }
    bytes
}

/// Puts 0D before one 0A, or in its place.
fn carriage_return(random: &mut Random, bytes: &mut Vec<u8>) {
    let ends: Vec<usize> = (0..bytes.len()).filter(|&i| bytes[i] == 0x0a).collect();
    let end = random.pick(&ends);
    if random.chance(70) { bytes.insert(end, 0x0d) } else { bytes[end] = 0x0d }
}
