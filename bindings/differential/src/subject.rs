//! The two sides that are compared, behind one trait.

/// Which way a sheet is moved: over to the form with purposes, or back to the old one.
#[derive(Clone, Copy)]
pub enum Way {
    Upgrade,
    Downgrade,
}

impl Way {
    pub fn name(self) -> &'static str {
        match self {
            Way::Upgrade => "upgrade",
            Way::Downgrade => "downgrade",
        }
    }

    /// The other way.
    pub fn back(self) -> Way {
        match self {
            Way::Upgrade => Way::Downgrade,
            Way::Downgrade => Way::Upgrade,
        }
    }
}

pub trait Subject {
    fn check(&self, sheet: &[u8], charter: &[u8], output: &mut [u8]) -> Result<usize, u32>;
    fn slack(&self, sheet: &[u8], charter: &[u8], output: &mut [u8]) -> Result<usize, u32>;
    /// The length of the sentence, 0 for a sheet with nothing to explain.
    fn explain(&self, sheet: &[u8], charter: &[u8], names: &[u8], line: &mut [u8]) -> Result<usize, u32>;
    fn play(&self, sheet: &[u8], charter: &[u8], script: &[u8], log: &mut [u8]) -> Result<usize, u32>;
    fn moved(&self, way: Way, sheet: &[u8], output: &mut [u8]) -> Result<usize, u32>;
    fn no_looser(&self, charter: &[u8], before: &[u8]) -> bool;
}

/// The independent implementation.
pub struct Independent;

impl Subject for Independent {
    fn check(&self, sheet: &[u8], charter: &[u8], output: &mut [u8]) -> Result<usize, u32> {
        independent::check(sheet, charter, output)
    }

    fn slack(&self, sheet: &[u8], charter: &[u8], output: &mut [u8]) -> Result<usize, u32> {
        independent::slack(sheet, charter, output)
    }

    fn explain(&self, sheet: &[u8], charter: &[u8], names: &[u8], line: &mut [u8]) -> Result<usize, u32> {
        independent::explain(sheet, charter, names, line)
    }

    fn play(&self, sheet: &[u8], charter: &[u8], script: &[u8], log: &mut [u8]) -> Result<usize, u32> {
        independent::play(sheet, charter, script, log)
    }

    fn moved(&self, way: Way, sheet: &[u8], output: &mut [u8]) -> Result<usize, u32> {
        match way {
            Way::Upgrade => independent::upgrade(sheet, output),
            Way::Downgrade => independent::downgrade(sheet, output),
        }
    }

    fn no_looser(&self, charter: &[u8], before: &[u8]) -> bool {
        independent::no_looser(charter, before)
    }
}

/// The proved library.
pub struct Proved;

impl Subject for Proved {
    fn check(&self, sheet: &[u8], charter: &[u8], output: &mut [u8]) -> Result<usize, u32> {
        result(velimhaw::check(sheet, charter, output))
    }

    fn slack(&self, sheet: &[u8], charter: &[u8], output: &mut [u8]) -> Result<usize, u32> {
        result(velimhaw::slack(sheet, charter, output))
    }

    fn explain(&self, sheet: &[u8], charter: &[u8], names: &[u8], line: &mut [u8]) -> Result<usize, u32> {
        match velimhaw::explain(sheet, charter, names, line) {
            velimhaw::Explanation::Accepted => Ok(0),
            velimhaw::Explanation::Sentence(length) => Ok(length),
            velimhaw::Explanation::Refused(number) => Err(number as u32),
        }
    }

    fn play(&self, sheet: &[u8], charter: &[u8], script: &[u8], log: &mut [u8]) -> Result<usize, u32> {
        result(velimhaw::play(sheet, charter, script, log))
    }

    fn moved(&self, way: Way, sheet: &[u8], output: &mut [u8]) -> Result<usize, u32> {
        result(match way {
            Way::Upgrade => velimhaw::upgrade(sheet, output),
            Way::Downgrade => velimhaw::downgrade(sheet, output),
        })
    }

    fn no_looser(&self, charter: &[u8], before: &[u8]) -> bool {
        velimhaw::no_looser(charter, before)
    }
}

fn result(answer: velimhaw::Answer) -> Result<usize, u32> {
    match answer {
        velimhaw::Answer::Accepted(length) => Ok(length),
        velimhaw::Answer::Refused(number) => Err(number as u32),
    }
}
