//! Reads `MODE LENGTH` lines, each with LENGTH bytes of a script behind it, and prints one line for each script: `refused`,
//! or the tree that wild's parser makes of it. The mode is passed over: wild's own is the only one here. With the argument `repeated` it is a
//! program to measure with, as crates/timing is.
//!
//! linker_script.rs is wild's file, byte for byte. What stands in this file is what it takes from its own crate.

use std::io::{BufRead, Read, Write};
use std::path::Path;

#[allow(dead_code, unused_imports)]
mod linker_script;
mod tree;

#[allow(dead_code)]
pub(crate) mod args {
    use std::path::Path;

    #[derive(Clone, Copy)]
    pub(crate) struct Modifiers {
        pub(crate) as_needed: bool,
    }

    pub(crate) enum InputSpec {
        Lib(Box<str>),
        File(Box<Path>),
    }

    pub(crate) struct Input {
        pub(crate) spec: InputSpec,
        pub(crate) search_first: Option<()>,
        pub(crate) modifiers: Modifiers,
    }
}

#[allow(dead_code)]
pub(crate) mod error {
    pub(crate) struct Error(pub(crate) String);

    pub(crate) type Result<T = (), E = Error> = std::result::Result<T, E>;

    pub(crate) trait Context<T> {
        fn with_context(self, text: impl FnOnce() -> String) -> Result<T>;
    }

    impl<T, E> Context<T> for std::result::Result<T, E> {
        fn with_context(self, text: impl FnOnce() -> String) -> Result<T> {
            self.map_err(|_| Error(text()))
        }
    }
}

#[macro_export]
macro_rules! error {
    ($($text:tt)*) => { $crate::error::Error(format!($($text)*)) };
}

pub(crate) mod parsing {
    /// Where the name stands; wild keeps one of its known names instead.
    #[derive(Debug, PartialEq, Eq, Clone)]
    pub(crate) struct SegmentName {
        pub(crate) address: usize,
        pub(crate) length: usize,
    }

    impl SegmentName {
        pub(crate) fn from_bytes(bytes: &[u8]) -> Self {
            SegmentName {
                address: bytes.as_ptr() as usize,
                length: bytes.len(),
            }
        }
    }
}

fn run() -> std::io::Result<()> {
    let mut given = std::io::stdin().lock();
    let mut out = std::io::BufWriter::new(std::io::stdout().lock());
    let mut header = String::new();
    while given.read_line(&mut header)? > 0 {
        let length = header.split_whitespace().nth(1).and_then(|n| n.parse().ok());
        let mut script = vec![0; length.expect("a line MODE LENGTH")];
        given.read_exact(&mut script)?;
        let line = match linker_script::LinkerScript::parse(&script, Path::new("script")) {
            Ok(read) => tree::text(&script, &read),
            Err(_) => "refused".to_owned(),
        };
        writeln!(out, "{line}")?;
        if cfg!(feature = "trace") {
            writeln!(out, "{}", winnow::trace::taken())?;
        }
        header.clear();
    }
    out.flush()
}

/// Parses the script behind a line `MODE TIMES` so many times, and prints how many commands that makes: for measuring.
fn repeated() -> std::io::Result<()> {
    let mut given = std::io::stdin().lock();
    let mut header = String::new();
    given.read_line(&mut header)?;
    let times: usize = header.split_whitespace().nth(1).and_then(|n| n.parse().ok()).expect("a line MODE TIMES");
    let mut script = Vec::new();
    given.read_to_end(&mut script)?;
    let mut sum = 0;
    for _ in 0..times {
        let read = linker_script::LinkerScript::parse(std::hint::black_box(&script), Path::new("script"));
        sum += read.map_or(0, |read| std::hint::black_box(read).commands.len());
    }
    println!("{sum}");
    Ok(())
}

fn main() -> std::io::Result<()> {
    // wild's parser knows no limit of levels
    let stack = std::thread::Builder::new().stack_size(2 << 30);
    stack.spawn(if std::env::args().any(|a| a == "repeated") { repeated } else { run })?.join().expect("no panic")
}
