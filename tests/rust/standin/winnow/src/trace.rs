//! Which places of linker_script.rs a reading comes by, and with what outcome: for choose.py, which builds with the feature
//! `trace` and a copy of linker_script.rs that calls `arm`, `skip`, `blanks` and `noted`. Without the feature nothing is kept.

use std::cell::{Cell, RefCell};
use std::collections::BTreeSet;
use std::panic::Location;

use crate::{BStr, Result, ascii};

thread_local! {
    // line, kind of place, outcome, and for a try that is given up the line where it failed
    static MET: RefCell<BTreeSet<(u32, char, usize, u32)>> = const { RefCell::new(BTreeSet::new()) };
    // where what fails now began to fail; 0 where nothing fails
    static FAILING: Cell<u32> = const { Cell::new(0) };
}

fn met(line: u32, kind: char, outcome: usize, failing: u32) {
    MET.with_borrow_mut(|met| met.insert((line, kind, outcome, failing)));
}

/// What the readings since the last call came by.
pub fn taken() -> String {
    FAILING.set(0);
    let met = MET.with_borrow_mut(std::mem::take);
    let words = met.iter().map(|(line, kind, outcome, failing)| format!("{line}{kind}{outcome}<{failing}"));
    words.collect::<Vec<_>>().join(" ")
}

/// The line where a combinator was made; 0 without the feature.
#[derive(Clone, Copy)]
pub struct Site(u32);

impl Site {
    #[track_caller]
    pub(crate) fn here() -> Site {
        Site(if cfg!(feature = "trace") { Location::caller().line() } else { 0 })
    }

    pub(crate) fn met(self, kind: char, outcome: usize) {
        if cfg!(feature = "trace") {
            met(self.0, kind, outcome, 0);
        }
    }

    /// A try of this number was read, or is given up.
    pub(crate) fn tried(self, kind: char, number: usize, read: bool) {
        if cfg!(feature = "trace") {
            met(self.0, kind, 2 * number + read as usize, if read { 0 } else { FAILING.get() });
            FAILING.set(0);
        }
    }
}

/// A branch is taken.
pub fn arm(line: u32) {
    met(line, 'b', 0, 0);
}

/// Blanks and comments are skipped: there are none, blanks alone, or comments, or one does not end.
pub fn skip(line: u32, input: &mut &BStr, all: impl Fn(&mut &BStr) -> Result<()>) -> Result<()> {
    let start = *input;
    let done = all(input);
    let passed = &start[..start.len() - input.len()];
    let comment = passed.iter().any(|b| b"#/".contains(b));
    met(line, 's', if done.is_err() { 3 } else if comment { 2 } else { !passed.is_empty() as usize }, 0);
    FAILING.set(if done.is_err() { line } else { 0 });
    done
}

/// Blanks are skipped: there are none, or some.
pub fn blanks<'a>(line: u32, input: &mut &'a BStr) -> Result<&'a [u8]> {
    let passed = ascii::multispace0(input)?;
    met(line, 'w', !passed.is_empty() as usize, 0);
    Ok(passed)
}

pub trait Noted {
    fn noted(self, line: u32) -> Self;
}

impl<T, E> Noted for Result<T, E> {
    fn noted(self, line: u32) -> Self {
        met(line, 'r', self.is_ok() as usize, 0);
        if self.is_ok() {
            FAILING.set(0);
        } else if FAILING.get() == 0 {
            FAILING.set(line);
        }
        self
    }
}
