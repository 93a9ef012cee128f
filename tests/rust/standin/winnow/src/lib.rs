//! Stand-in for the part of `winnow` that linker_script.rs uses; each does what crates/rules/specs/Rule.antt says of it.
//!
//! There is one kind of error, and every error backtracks: `opt`, `alt`, `not` and the end mark of `repeat_till` put the
//! cursor back when a parser fails. A parser that fails on its own may leave the cursor anywhere.

use std::borrow::Borrow;
use std::marker::PhantomData;
use std::ops::{Deref, Index, RangeFrom, RangeTo};

use error::ContextError;

pub mod trace;

pub type Result<O, E = ContextError> = std::result::Result<O, E>;

/// Bytes of a script.
#[repr(transparent)]
pub struct BStr([u8]);

impl BStr {
    pub fn new(bytes: &[u8]) -> &BStr {
        // SAFETY: BStr is a transparent wrapper of [u8].
        unsafe { &*(bytes as *const [u8] as *const BStr) }
    }
}

impl Deref for BStr {
    type Target = [u8];
    fn deref(&self) -> &[u8] {
        &self.0
    }
}

impl Index<usize> for BStr {
    type Output = u8;
    fn index(&self, i: usize) -> &u8 {
        &self.0[i]
    }
}

impl Index<RangeFrom<usize>> for BStr {
    type Output = BStr;
    fn index(&self, r: RangeFrom<usize>) -> &BStr {
        BStr::new(&self.0[r])
    }
}

impl Index<RangeTo<usize>> for BStr {
    type Output = BStr;
    fn index(&self, r: RangeTo<usize>) -> &BStr {
        BStr::new(&self.0[r])
    }
}

/// What stands before a parser: only `&BStr` is one.
pub trait Cursor: Copy {
    fn rest(&self) -> &[u8];
    fn pass(&mut self, n: usize);
}

impl Cursor for &BStr {
    fn rest(&self) -> &[u8] {
        self
    }
    fn pass(&mut self, n: usize) {
        *self = &self[n..];
    }
}

/// The next `n` bytes, passed.
fn take<'a>(input: &mut &'a BStr, n: usize) -> &'a [u8] {
    let taken: &'a [u8] = &input[..n];
    input.pass(n);
    taken
}

fn literal<'a>(input: &mut &'a BStr, wanted: &[u8]) -> Result<&'a [u8]> {
    if input.starts_with(wanted) {
        Ok(take(input, wanted.len()))
    } else {
        Err(ContextError)
    }
}

pub struct ParseError;

impl std::fmt::Display for ParseError {
    fn fmt(&self, f: &mut std::fmt::Formatter<'_>) -> std::fmt::Result {
        f.write_str("not read")
    }
}

pub trait Parser<I, O> {
    fn parse_next(&mut self, input: &mut I) -> Result<O>;

    /// The whole input, or an error.
    fn parse(mut self, mut input: I) -> Result<O, ParseError>
    where
        Self: Sized,
        I: Cursor,
    {
        match self.parse_next(&mut input) {
            Ok(value) if input.rest().is_empty() => Ok(value),
            _ => Err(ParseError),
        }
    }

    fn map<G, O2>(self, g: G) -> Map<Self, G, I, O>
    where
        Self: Sized,
        G: FnMut(O) -> O2,
    {
        Map(self, g, PhantomData)
    }

    fn value<V>(self, v: V) -> Value<Self, V, I, O>
    where
        Self: Sized,
        V: Clone,
    {
        Value(self, v, PhantomData)
    }

    fn verify<G, B>(self, g: G) -> Verify<Self, G, I, O, B>
    where
        Self: Sized,
        G: FnMut(&B) -> bool,
        O: Borrow<B>,
        B: ?Sized,
    {
        Verify(self, g, PhantomData, PhantomData)
    }
}

pub struct Map<P, G, I, O>(P, G, PhantomData<(I, O)>);

impl<P, G, I, O, O2> Parser<I, O2> for Map<P, G, I, O>
where
    P: Parser<I, O>,
    G: FnMut(O) -> O2,
{
    fn parse_next(&mut self, input: &mut I) -> Result<O2> {
        self.0.parse_next(input).map(&mut self.1)
    }
}

pub struct Value<P, V, I, O>(P, V, PhantomData<(I, O)>);

impl<P, V, I, O> Parser<I, V> for Value<P, V, I, O>
where
    P: Parser<I, O>,
    V: Clone,
{
    fn parse_next(&mut self, input: &mut I) -> Result<V> {
        self.0.parse_next(input).map(|_| self.1.clone())
    }
}

pub struct Verify<P, G, I, O, B: ?Sized>(P, G, PhantomData<(I, O)>, PhantomData<B>);

impl<P, G, I, O, B> Parser<I, O> for Verify<P, G, I, O, B>
where
    P: Parser<I, O>,
    G: FnMut(&B) -> bool,
    O: Borrow<B>,
    B: ?Sized,
{
    fn parse_next(&mut self, input: &mut I) -> Result<O> {
        let value = self.0.parse_next(input)?;
        if (self.1)(value.borrow()) { Ok(value) } else { Err(ContextError) }
    }
}

impl<I, O, F> Parser<I, O> for F
where
    F: FnMut(&mut I) -> Result<O, ContextError>,
{
    fn parse_next(&mut self, input: &mut I) -> Result<O> {
        self(input)
    }
}

impl<'a> Parser<&'a BStr, char> for char {
    fn parse_next(&mut self, input: &mut &'a BStr) -> Result<char> {
        assert!(self.is_ascii());
        literal(input, &[*self as u8]).map(|_| *self)
    }
}

impl<'a> Parser<&'a BStr, &'a [u8]> for &str {
    fn parse_next(&mut self, input: &mut &'a BStr) -> Result<&'a [u8]> {
        literal(input, self.as_bytes())
    }
}

impl<'a, const N: usize> Parser<&'a BStr, &'a [u8]> for &[u8; N] {
    fn parse_next(&mut self, input: &mut &'a BStr) -> Result<&'a [u8]> {
        literal(input, *self)
    }
}

/// One after the other.
impl<I, O1, O2, P1, P2> Parser<I, (O1, O2)> for (P1, P2)
where
    P1: Parser<I, O1>,
    P2: Parser<I, O2>,
{
    fn parse_next(&mut self, input: &mut I) -> Result<(O1, O2)> {
        let first = self.0.parse_next(input)?;
        Ok((first, self.1.parse_next(input)?))
    }
}

pub mod error {
    #[derive(Debug, Default)]
    pub struct ContextError;

    impl ContextError {
        pub fn new() -> Self {
            ContextError
        }
    }

    pub trait FromExternalError<I, E> {
        fn from_external_error(input: &I, e: E) -> Self;
    }

    impl<I, E> FromExternalError<I, E> for ContextError {
        fn from_external_error(_: &I, _: E) -> Self {
            ContextError
        }
    }
}

pub mod ascii {
    use crate::{BStr, Cursor, Result, take};

    /// Blanks: space, tab, CR, LF; there may be none.
    pub fn multispace0<'a>(input: &mut &'a BStr) -> Result<&'a [u8]> {
        let n = input.iter().take_while(|b| b" \t\r\n".contains(b)).count();
        Ok(take(input, n))
    }

    pub trait Uint: Sized {
        fn from_digits(digits: &[u8], base: u32) -> Option<Self>;
    }

    impl Uint for u64 {
        fn from_digits(digits: &[u8], base: u32) -> Option<u64> {
            digits.iter().try_fold(0u64, |n, &b| {
                let digit = (b as char).to_digit(base)?;
                n.checked_mul(base.into())?.checked_add(digit.into())
            })
        }
    }

    /// A lone `0`, or a digit 1 to 9 and all digits after it; it fails when the number does not fit.
    pub fn dec_uint<I: Cursor, O: Uint, E: Default>(input: &mut I) -> Result<O, E> {
        let digits = input.rest().iter().take_while(|b| b.is_ascii_digit()).count();
        let n = if input.rest().starts_with(b"0") { 1 } else { digits };
        if n == 0 {
            return Err(E::default());
        }
        let value = O::from_digits(&input.rest()[..n], 10).ok_or_else(E::default)?;
        input.pass(n);
        Ok(value)
    }

    /// 1 to 16 hex digits; with none or more of them it fails.
    pub fn hex_uint<I: Cursor, O: Uint, E: Default>(input: &mut I) -> Result<O, E> {
        let n = input.rest().iter().take_while(|b| b.is_ascii_hexdigit()).count();
        if n == 0 || n > 16 {
            return Err(E::default());
        }
        let value = O::from_digits(&input.rest()[..n], 16).ok_or_else(E::default)?;
        input.pass(n);
        Ok(value)
    }
}

pub mod token {
    use std::ops::RangeFrom;

    use crate::error::ContextError;
    use crate::{BStr, Parser, take};

    pub fn one_of<'a, const N: usize>(set: &[u8; N]) -> impl Parser<&'a BStr, u8> {
        move |input: &mut &'a BStr| match input.first() {
            Some(b) if set.contains(b) => Ok(take(input, 1)[0]),
            _ => Err(ContextError),
        }
    }

    /// All bytes of the set that stand here, at least as many as the range begins with.
    pub fn take_while<'a>(
        many: RangeFrom<usize>,
        set: impl Fn(u8) -> bool,
    ) -> impl Parser<&'a BStr, &'a [u8]> {
        move |input: &mut &'a BStr| {
            let n = input.iter().take_while(|b| set(**b)).count();
            if n < many.start { Err(ContextError) } else { Ok(take(input, n)) }
        }
    }

    /// All bytes before the first place of the end mark, which must be there and is not passed.
    pub fn take_until<'a>(many: RangeFrom<usize>, end: &str) -> impl Parser<&'a BStr, &'a [u8]> {
        move |input: &mut &'a BStr| {
            match input.windows(end.len()).position(|w| w == end.as_bytes()) {
                Some(n) if n >= many.start => Ok(take(input, n)),
                _ => Err(ContextError),
            }
        }
    }
}

pub mod combinator {
    use std::ops::RangeFrom;

    use crate::error::ContextError;
    use crate::trace::Site;
    use crate::{Cursor, Parser, Result};

    /// Some value, or None with the cursor put back.
    #[track_caller]
    pub fn opt<I: Copy, O>(mut p: impl Parser<I, O>) -> impl Parser<I, Option<O>> {
        let site = Site::here();
        move |input: &mut I| {
            let start = *input;
            let read = p.parse_next(input);
            site.tried('o', 0, read.is_ok());
            Ok(read.map_err(|_| *input = start).ok())
        }
    }

    /// Succeeds where the parser fails; the cursor stays.
    #[track_caller]
    pub fn not<I: Copy, O>(mut p: impl Parser<I, O>) -> impl Parser<I, ()> {
        let site = Site::here();
        move |input: &mut I| {
            let start = *input;
            let read = p.parse_next(input).is_ok();
            site.tried('n', 0, read);
            *input = start;
            if read { Err(ContextError) } else { Ok(()) }
        }
    }

    pub fn preceded<I, O1, O2>(
        mut before: impl Parser<I, O1>,
        mut p: impl Parser<I, O2>,
    ) -> impl Parser<I, O2> {
        move |input: &mut I| {
            before.parse_next(input)?;
            p.parse_next(input)
        }
    }

    pub fn delimited<I, O1, O2, O3>(
        mut before: impl Parser<I, O1>,
        mut p: impl Parser<I, O2>,
        mut behind: impl Parser<I, O3>,
    ) -> impl Parser<I, O2> {
        move |input: &mut I| {
            before.parse_next(input)?;
            let value = p.parse_next(input)?;
            behind.parse_next(input)?;
            Ok(value)
        }
    }

    /// The end mark is tried first each time; where it is not read, the parser must be, and must pass something.
    #[track_caller]
    pub fn repeat_till<I: Cursor, O, E>(
        many: RangeFrom<usize>,
        mut p: impl Parser<I, O>,
        mut end: impl Parser<I, E>,
    ) -> impl Parser<I, (Vec<O>, E)> {
        assert_eq!(many.start, 0);
        let site = Site::here();
        move |input: &mut I| {
            let mut values = vec![];
            loop {
                let start = *input;
                if let Ok(mark) = end.parse_next(input) {
                    site.met('t', values.len().min(2));
                    return Ok((values, mark));
                }
                *input = start;
                values.push(p.parse_next(input)?);
                if input.rest().len() == start.rest().len() {
                    return Err(ContextError);
                }
            }
        }
    }

    pub fn eof<I: Cursor>(input: &mut I) -> Result<()> {
        if input.rest().is_empty() { Ok(()) } else { Err(ContextError) }
    }

    pub trait Alt<I, O> {
        fn choice(&mut self, input: &mut I, site: Site) -> Result<O>;
    }

    /// The first of the parsers that reads; each starts where the first did.
    #[track_caller]
    pub fn alt<I, O>(mut parsers: impl Alt<I, O>) -> impl Parser<I, O> {
        let site = Site::here();
        move |input: &mut I| parsers.choice(input, site)
    }

    macro_rules! alt_of {
        ($($p:ident $n:tt),+) => {
            impl<I: Copy, O, $($p: Parser<I, O>),+> Alt<I, O> for ($($p,)+) {
                fn choice(&mut self, input: &mut I, site: Site) -> Result<O> {
                    let start = *input;
                    $(
                        *input = start;
                        let read = self.$n.parse_next(input);
                        site.tried('a', $n, read.is_ok());
                        if read.is_ok() {
                            return read;
                        }
                    )+
                    *input = start;
                    Err(ContextError)
                }
            }
        };
    }

    alt_of!(A 0, B 1);
    alt_of!(A 0, B 1, C 2);
    alt_of!(A 0, B 1, C 2, D 3);
    alt_of!(A 0, B 1, C 2, D 3, E 4);
    alt_of!(A 0, B 1, C 2, D 3, E 4, F 5);
}
