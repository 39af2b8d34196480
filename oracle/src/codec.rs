//! One walk over each value serves four purposes: writing and reading it as
//! text, and writing and reading it as plain numbers. A text line is the
//! numbers with a keyword before each part and a name for each choice.

/// Why a line or a list of numbers could not be read.
pub type Res<T = ()> = Result<T, String>;

/// Longest list that is read, so that a damaged file asks for no memory.
const MOST: u64 = 1 << 20;

/// Refuses a number other than 0 where nothing is kept: every value has one
/// form only.
pub fn unused(stray: bool) -> Res {
    (!stray).then_some(()).ok_or_else(|| "a number other than 0 in a place not in use".into())
}

/// A walk's other end: a source of numbers or a sink for them.
pub trait Codec {
    /// A keyword, present in text only.
    fn key(&mut self, key: &'static str) -> Res;

    /// A number, read into `x` or written from it.
    fn num(&mut self, x: &mut u64) -> Res;

    /// One of several names, by its index.
    fn pick(&mut self, names: &[&'static str], i: &mut usize) -> Res;

    /// A number in a narrower field.
    fn field<T: Copy + TryFrom<u64> + TryInto<u64>>(&mut self, x: &mut T) -> Res {
        let mut n = (*x).try_into().map_err(|_| "a field above 64 bits")?;
        self.num(&mut n)?;
        *x = T::try_from(n).map_err(|_| format!("{n} does not fit its field"))?;
        Ok(())
    }

    fn flag(&mut self, x: &mut bool) -> Res {
        let mut n = u8::from(*x);
        self.field(&mut n)?;
        *x = match n {
            0 => false,
            1 => true,
            _ => return Err(format!("{n} is no flag")),
        };
        Ok(())
    }

    /// A signed number, as its two's complement.
    fn signed(&mut self, x: &mut i64) -> Res {
        let mut n = *x as u64;
        self.num(&mut n)?;
        *x = n as i64;
        Ok(())
    }

    /// A flag and a number, 0 if there is none.
    fn option<T>(&mut self, x: &mut Option<T>) -> Res
    where
        T: Copy + Default + PartialEq + TryFrom<u64> + TryInto<u64>,
    {
        let mut some = x.is_some();
        let mut value = x.unwrap_or_default();
        self.flag(&mut some)?;
        self.field(&mut value)?;
        unused(!some && value != T::default())?;
        *x = some.then_some(value);
        Ok(())
    }

    /// A count and that many parts.
    fn list<T: Clone>(
        &mut self,
        xs: &mut Vec<T>,
        blank: T,
        mut each: impl FnMut(&mut Self, &mut T) -> Res,
    ) -> Res
    where
        Self: Sized,
    {
        let mut n = xs.len() as u64;
        self.num(&mut n)?;
        if n > MOST {
            return Err(format!("a list of {n} is too long"));
        }
        xs.resize(n as usize, blank);
        xs.iter_mut().try_for_each(|x| each(self, x))
    }

    fn words(&mut self, xs: &mut Vec<u64>) -> Res
    where
        Self: Sized,
    {
        self.list(xs, 0, |c, x| c.num(x))
    }
}

/// Writes a line of text.
#[derive(Default)]
pub struct TextWriter(String);

impl TextWriter {
    #[must_use]
    pub fn line(self) -> String {
        self.0
    }

    fn token(&mut self, t: &str) {
        if !self.0.is_empty() {
            self.0.push(' ');
        }
        self.0.push_str(t);
    }
}

impl Codec for TextWriter {
    fn key(&mut self, key: &'static str) -> Res {
        self.token(key);
        Ok(())
    }

    fn num(&mut self, x: &mut u64) -> Res {
        self.token(&x.to_string());
        Ok(())
    }

    fn pick(&mut self, names: &[&'static str], i: &mut usize) -> Res {
        self.token(names[*i]);
        Ok(())
    }
}

/// Reads a line of text.
pub struct TextReader<'a>(std::str::SplitAsciiWhitespace<'a>);

impl<'a> TextReader<'a> {
    #[must_use]
    pub fn new(line: &'a str) -> TextReader<'a> {
        TextReader(line.split_ascii_whitespace())
    }

    fn token(&mut self) -> Res<&'a str> {
        self.0.next().ok_or_else(|| "the line ends early".into())
    }

    pub fn end(mut self) -> Res {
        match self.0.next() {
            None => Ok(()),
            Some(t) => Err(format!("`{t}` after the end")),
        }
    }
}

impl Codec for TextReader<'_> {
    fn key(&mut self, key: &'static str) -> Res {
        let t = self.token()?;
        (t == key).then_some(()).ok_or_else(|| format!("`{t}` where `{key}` should stand"))
    }

    fn num(&mut self, x: &mut u64) -> Res {
        let t = self.token()?;
        *x = t.parse().map_err(|_| format!("`{t}` is no number"))?;
        Ok(())
    }

    fn pick(&mut self, names: &[&'static str], i: &mut usize) -> Res {
        let t = self.token()?;
        *i = names
            .iter()
            .position(|n| *n == t)
            .ok_or_else(|| format!("`{t}` is none of {}", names.join(" ")))?;
        Ok(())
    }
}

/// Collects plain numbers.
#[derive(Default)]
pub struct NumWriter(pub Vec<u64>);

impl Codec for NumWriter {
    fn key(&mut self, _key: &'static str) -> Res {
        Ok(())
    }

    fn num(&mut self, x: &mut u64) -> Res {
        self.0.push(*x);
        Ok(())
    }

    fn pick(&mut self, _names: &[&'static str], i: &mut usize) -> Res {
        self.0.push(*i as u64);
        Ok(())
    }
}

/// Reads plain numbers, from the front.
pub struct NumReader<'a>(pub &'a [u64]);

impl Codec for NumReader<'_> {
    fn key(&mut self, _key: &'static str) -> Res {
        Ok(())
    }

    fn num(&mut self, x: &mut u64) -> Res {
        let (first, rest) = self.0.split_first().ok_or("the numbers end early")?;
        *x = *first;
        self.0 = rest;
        Ok(())
    }

    fn pick(&mut self, names: &[&'static str], i: &mut usize) -> Res {
        let mut n = 0;
        self.num(&mut n)?;
        *i = n as usize;
        (*i < names.len())
            .then_some(())
            .ok_or_else(|| format!("{n} is no choice of {}", names.join(" ")))
    }
}
