//! A stand-in for the crate nonempty, as far as the nine files call it: a list with at least one entry.
//!
//! It is not that crate.

/// The first entry, and those behind it.
pub struct NonEmpty<T> {
    head: T,
    tail: Vec<T>,
}

impl<T> NonEmpty<T> {
    pub fn from_vec(entries: Vec<T>) -> Option<NonEmpty<T>> {
        let mut rest = entries.into_iter();
        let head = rest.next()?;
        Some(NonEmpty { head, tail: rest.collect() })
    }

    pub fn first(&self) -> &T {
        &self.head
    }

    pub fn tail(&self) -> &[T] {
        &self.tail
    }

    pub fn len(&self) -> usize {
        1 + self.tail.len()
    }

    pub fn iter(&self) -> Iter<'_, T> {
        std::iter::once(&self.head).chain(&self.tail)
    }
}

/// All entries, in order.
pub type Iter<'a, T> = std::iter::Chain<std::iter::Once<&'a T>, std::slice::Iter<'a, T>>;

impl<'a, T> IntoIterator for &'a NonEmpty<T> {
    type Item = &'a T;
    type IntoIter = Iter<'a, T>;

    fn into_iter(self) -> Iter<'a, T> {
        self.iter()
    }
}
