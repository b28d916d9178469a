//! What the programs write.

use crate::cover::Verdict;
use crate::permissions::Need;
use crate::sentence;
use crate::sheet::Component;

/// The list program's text for a sheet, a charter and a names file.
pub fn list(sheet: &[u8], charter: &[u8], names: &[u8]) -> String {
    match crate::accept(sheet, charter) {
        Err(18) => refused(18) + &explanation(sheet, charter, names),
        Err(number) => refused(number),
        Ok(accepted) => {
            let component = |number: usize| &accepted.sheet.components[number];
            let lines = accepted.entries().map(|(entry, verdict)| line(entry.kind, component(entry.component), verdict));
            std::iter::once("accepted\n".to_string()).chain(lines).collect()
        }
    }
}

/// The run program's bytes for a sheet, a charter and a script.
pub fn run(sheet: &[u8], charter: &[u8], script: &[u8]) -> Vec<u8> {
    let mut log = vec![0; 8 * crate::script::MOST_MOVES];
    match crate::play(sheet, charter, script, &mut log) {
        Err(number) => refused(number).into_bytes(),
        Ok(moves) => {
            log.truncate(8 * moves);
            log
        }
    }
}

/// The upgrade program's bytes for an old sheet.
pub fn upgrade(sheet: &[u8]) -> Vec<u8> {
    moved(sheet, crate::upgrade)
}

/// The downgrade program's bytes for a sheet.
pub fn downgrade(sheet: &[u8]) -> Vec<u8> {
    moved(sheet, crate::downgrade)
}

fn moved(sheet: &[u8], service: fn(&[u8], &mut [u8]) -> Result<usize, u32>) -> Vec<u8> {
    let mut output = vec![0; crate::LONGEST];
    match service(sheet, &mut output) {
        Err(number) => refused(number).into_bytes(),
        Ok(length) => {
            output.truncate(length);
            output
        }
    }
}

/// The stricter program's line for a charter and the one before it.
pub fn stricter(charter: &[u8], before: &[u8]) -> String {
    if crate::no_looser(charter, before) { "yes\n".to_string() } else { "no\n".to_string() }
}

/// The line below `refused 18`: the sentence, or the number of the question that keeps it from being written.
fn explanation(sheet: &[u8], charter: &[u8], names: &[u8]) -> String {
    let mut line = [0; sentence::LONGEST];
    match crate::explain(sheet, charter, names, &mut line) {
        Err(number) => refused(number),
        Ok(length) => String::from_utf8_lossy(&line[..length]).into_owned() + "\n",
    }
}

fn refused(number: u32) -> String {
    format!("refused {number}\n")
}

/// The line of an entry that is covered.
fn line(kind: u8, component: &Component, verdict: &Verdict) -> String {
    let path: Vec<String> = component.path.iter().map(u8::to_string).collect();
    format!("{kind} {}:{} {}\n", path.join("."), component.purpose, fields(verdict).join(" "))
}

/// The flags that an entry needs, and for each group that it discloses into the needed sum beside the granted one.
fn fields(verdict: &Verdict) -> Vec<String> {
    let flags = verdict.flags.iter().map(|(need, _)| letter(*need).to_string());
    let disclose = verdict.disclose.iter().map(|(&group, sums)| {
        let letter = letter(Need::Disclose(group));
        format!("{letter}{group}:{}/{}", sums.needed, sums.granted)
    });
    flags.chain(disclose).collect()
}

fn letter(need: Need) -> char {
    match need {
        Need::Read => 'r',
        Need::Write => 'w',
        Need::Access => 'a',
        Need::Disclose(_) => 'd',
    }
}
