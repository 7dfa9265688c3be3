//! A stand-in for the crate gix-error, as far as the nine files call it: errors that keep their texts.
//!
//! It is not that crate. It was written from what the nine files show of it: a text (`Message`), an error with what it was raised from
//! (`Exn`), and two traits that raise. `Exn::texts` is this stand-in's own, so that a caller can tell which refusal it has.

use std::{borrow::Cow, error::Error, fmt};

/// A text.
#[derive(Clone, Debug, Eq, PartialEq)]
pub struct Message(Cow<'static, str>);

/// A text that is known beforehand.
pub fn message(text: impl Into<Cow<'static, str>>) -> Message {
    Message(text.into())
}

/// A text as `format!` makes it.
#[macro_export]
macro_rules! message {
    ($($words:tt)*) => {
        $crate::message(::std::format!($($words)*))
    };
}

impl fmt::Display for Message {
    fn fmt(&self, f: &mut fmt::Formatter<'_>) -> fmt::Result {
        f.write_str(&self.0)
    }
}

impl Error for Message {}

/// What is left of an error whose type is given up: its text.
pub struct Erased(String);

impl fmt::Display for Erased {
    fn fmt(&self, f: &mut fmt::Formatter<'_>) -> fmt::Result {
        f.write_str(&self.0)
    }
}

/// An error, and the texts of those that it was raised from.
pub struct Exn<E = Erased> {
    error: E,
    below: Vec<String>,
}

impl<E: fmt::Display> Exn<E> {
    /// The stand-in's own: every text, the outermost first.
    pub fn texts(&self) -> Vec<String> {
        let mut all = vec![self.error.to_string()];
        all.extend(self.below.iter().cloned());
        all
    }
}

impl<E: fmt::Display> fmt::Display for Exn<E> {
    fn fmt(&self, f: &mut fmt::Formatter<'_>) -> fmt::Result {
        self.error.fmt(f)
    }
}

impl<E: fmt::Display> fmt::Debug for Exn<E> {
    fn fmt(&self, f: &mut fmt::Formatter<'_>) -> fmt::Result {
        f.write_str(&self.texts().join(": "))
    }
}

impl<E: Error> From<E> for Exn<E> {
    fn from(error: E) -> Self {
        Exn { error, below: Vec::new() }
    }
}

/// Raises an error.
pub trait ErrorExt: Error + Sized {
    fn raise(self) -> Exn<Self> {
        self.into()
    }

    fn raise_erased(self) -> Exn {
        Exn { error: Erased(self.to_string()), below: Vec::new() }
    }
}

impl<E: Error> ErrorExt for E {}

/// Raises a new error from the one in a result.
pub trait ResultExt {
    type Value;

    fn or_raise<E: Error>(self, make: impl FnOnce() -> E) -> Result<Self::Value, Exn<E>>;
    fn or_raise_erased<E: Error>(self, make: impl FnOnce() -> E) -> Result<Self::Value, Exn>;
}

impl<T, C: Error> ResultExt for Result<T, C> {
    type Value = T;

    fn or_raise<E: Error>(self, make: impl FnOnce() -> E) -> Result<T, Exn<E>> {
        self.map_err(ErrorExt::raise).or_raise(make)
    }

    fn or_raise_erased<E: Error>(self, make: impl FnOnce() -> E) -> Result<T, Exn> {
        self.map_err(ErrorExt::raise).or_raise_erased(make)
    }
}

impl<T, C: fmt::Display> ResultExt for Result<T, Exn<C>> {
    type Value = T;

    fn or_raise<E: Error>(self, make: impl FnOnce() -> E) -> Result<T, Exn<E>> {
        self.map_err(|cause| Exn { error: make(), below: cause.texts() })
    }

    fn or_raise_erased<E: Error>(self, make: impl FnOnce() -> E) -> Result<T, Exn> {
        self.map_err(|cause| Exn { error: Erased(make().to_string()), below: cause.texts() })
    }
}
