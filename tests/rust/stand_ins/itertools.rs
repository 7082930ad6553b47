//! Stands in for the crate itertools: the macro and the two methods that the Rust uses, with the same meaning.

/// Iterates over several at once. As in itertools: a chain of `zip`, and one `map` that makes the nested pairs flat.
#[macro_export]
macro_rules! izip {
    (@flat $p:pat => $tuple:expr) => { |$p| $tuple };
    (@flat $p:pat => ($($tuple:tt)*), $_next:expr $(, $rest:expr)*) => {
        $crate::izip!(@flat ($p, x) => ($($tuple)*, x) $(, $rest)*)
    };
    ($first:expr $(, $rest:expr)* $(,)?) => {
        ::core::iter::IntoIterator::into_iter($first)$(.zip($rest))*.map($crate::izip!(@flat x => (x) $(, $rest)*))
    };
}

pub trait Itertools: Iterator {
    /// Four items at a time; what is left over is dropped.
    fn tuples(self) -> Fours<Self>
    where
        Self: Sized,
    {
        Fours(self)
    }

    /// Each item with the one after it.
    fn tuple_windows(mut self) -> Windows<Self>
    where
        Self: Sized,
        Self::Item: Clone,
    {
        let last = self.next();
        Windows { rest: self, last }
    }
}

impl<I: Iterator> Itertools for I {}

pub struct Fours<I>(I);

impl<I: Iterator> Iterator for Fours<I> {
    type Item = (I::Item, I::Item, I::Item, I::Item);

    fn next(&mut self) -> Option<Self::Item> {
        Some((self.0.next()?, self.0.next()?, self.0.next()?, self.0.next()?))
    }
}

pub struct Windows<I: Iterator> {
    rest: I,
    last: Option<I::Item>,
}

impl<I: Iterator> Iterator for Windows<I>
where
    I::Item: Clone,
{
    type Item = (I::Item, I::Item);

    fn next(&mut self) -> Option<Self::Item> {
        let new = self.rest.next()?;
        let old = self.last.replace(new.clone())?;
        Some((old, new))
    }
}
