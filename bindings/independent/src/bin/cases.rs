//! Runs a file of cases through the independent implementation and compares what the programs would write.
//! A line: sheet|charter|script|what list writes|what run writes, in hexadecimal, and for a names file |names after them, where `-`
//! is the file names.bin beside the file of cases; or upgrade|sheet.bin=sheet|what it writes, and the same for downgrade; or
//! stricter|charter.bin=charter|before.bin=charter|what it writes. An empty line, or one that begins with #, is passed over.

use independent::text;
use std::path::Path;
use std::process::ExitCode;

/// A program's name, what it is wanted to write, and what it writes.
type Outcome = (&'static str, Vec<u8>, Vec<u8>);

fn main() -> ExitCode {
    let Some(path) = std::env::args().nth(1) else {
        eprintln!("usage: cases CASES.txt");
        return ExitCode::FAILURE;
    };
    let lines = std::fs::read_to_string(&path).expect("the file of cases");
    let beside = Path::new(&path).with_file_name("names.bin");
    let cases = lines.lines().enumerate().filter(|(_, line)| !line.is_empty() && !line.starts_with('#'));
    let results: Vec<bool> = cases.map(|(i, line)| agrees(i + 1, line, &beside)).collect();
    let passed = results.iter().filter(|&&fine| fine).count();
    println!("{} passed, {} failed", passed, results.len() - passed);
    if passed > 0 && passed == results.len() { ExitCode::SUCCESS } else { ExitCode::FAILURE }
}

/// Whether the outputs of one line agree; a difference is printed. `beside` is the names file that `-` stands for.
fn agrees(number: usize, line: &str, beside: &Path) -> bool {
    let Some(results) = results(&line.split('|').collect::<Vec<_>>(), beside) else {
        println!("line {number}: not the fields of a case");
        return false;
    };
    for (name, wants, got) in results.iter().filter(|(_, wants, got)| wants != got) {
        println!("line {number}, {name}: wants {:?}, wrote {:?}", String::from_utf8_lossy(wants), String::from_utf8_lossy(got));
    }
    results.iter().all(|(_, wants, got)| wants == got)
}

/// What the programs of one line are wanted to write, and what they write.
fn results(fields: &[&str], beside: &Path) -> Option<Vec<Outcome>> {
    match *fields {
        ["upgrade", sheet, wants] => Some(vec![("upgrade", unhex(wants), text::upgrade(&file("sheet.bin", sheet)?))]),
        ["downgrade", sheet, wants] => Some(vec![("downgrade", unhex(wants), text::downgrade(&file("sheet.bin", sheet)?))]),
        ["stricter", charter, before, wants] => {
            let line = text::stricter(&file("charter.bin", charter)?, &file("before.bin", before)?);
            Some(vec![("stricter", unhex(wants), line.into_bytes())])
        }
        [sheet, charter, script, wants_list, wants_run, ref names @ ..] if names.len() < 2 => {
            let (sheet, charter) = (unhex(sheet), unhex(charter));
            let list = text::list(&sheet, &charter, &names_file(names.first().copied(), beside)).into_bytes();
            let run = text::run(&sheet, &charter, &unhex(script));
            Some(vec![("list", unhex(wants_list), list), ("run", unhex(wants_run), run)])
        }
        _ => None,
    }
}

/// The bytes that a field gives for the file of such a name.
fn file(name: &str, field: &str) -> Option<Vec<u8>> {
    field.strip_prefix(name)?.strip_prefix('=').map(unhex)
}

/// The bytes of the names file that a line's sixth field gives.
fn names_file(field: Option<&str>, beside: &Path) -> Vec<u8> {
    match field {
        Some("-") => std::fs::read(beside).expect("the file names.bin"),
        Some(names) => unhex(names),
        None => Vec::new(),
    }
}

fn unhex(text: &str) -> Vec<u8> {
    let digit = |byte: u8| (byte as char).to_digit(16).expect("a hexadecimal digit") as u8;
    text.as_bytes().chunks(2).map(|pair| digit(pair[0]) << 4 | digit(pair[1])).collect()
}
