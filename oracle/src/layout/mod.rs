//! The order in which a state, a call and an answer are written. These files
//! are the format's definition; oracle/README.md gives it in tables.

mod calls;
mod state;

pub use calls::{answer, call};
pub use state::{machine, setup, world};

use crate::codec::{NumReader, NumWriter, Res, TextReader, TextWriter};

/// A value's line of text.
pub fn text<T: Clone>(x: &T, walk: impl Fn(&mut TextWriter, &mut T) -> Res) -> String {
    let mut c = TextWriter::default();
    walk(&mut c, &mut x.clone()).expect("writing text never fails");
    c.line()
}

/// A value's plain numbers.
pub fn numbers<T: Clone>(x: &T, walk: impl Fn(&mut NumWriter, &mut T) -> Res) -> Vec<u64> {
    let mut c = NumWriter::default();
    walk(&mut c, &mut x.clone()).expect("writing numbers never fails");
    c.0
}

/// Reads one value from a whole line.
pub fn from_text<'a, T>(
    line: &'a str,
    mut blank: T,
    walk: impl Fn(&mut TextReader<'a>, &mut T) -> Res,
) -> Res<T> {
    let mut c = TextReader::new(line);
    walk(&mut c, &mut blank)?;
    c.end()?;
    Ok(blank)
}

/// Reads one value from the front of a list of numbers.
pub fn from_numbers<'a, T>(
    c: &mut NumReader<'a>,
    mut blank: T,
    walk: impl Fn(&mut NumReader<'a>, &mut T) -> Res,
) -> Res<T> {
    walk(c, &mut blank)?;
    Ok(blank)
}
