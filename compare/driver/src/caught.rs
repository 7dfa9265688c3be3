//! The crate's panics, caught and kept silent.

use std::{
    cell::{Cell, RefCell},
    panic::{AssertUnwindSafe, PanicHookInfo, catch_unwind, set_hook, take_hook},
};

/// What a panic said, and in which source file.
#[derive(Clone, Debug)]
pub struct Panic {
    pub text: String,
    pub source: String,
}

thread_local! {
    static ASKING: Cell<bool> = const { Cell::new(false) };
    static LAST: RefCell<Option<Panic>> = const { RefCell::new(None) };
}

fn keep(info: &PanicHookInfo<'_>) {
    let payload = info.payload();
    let text = payload.downcast_ref::<String>().cloned();
    let text = text.or_else(|| payload.downcast_ref::<&str>().map(|s| s.to_string())).unwrap_or_default();
    let source = info.location().map(|l| l.file().to_owned()).unwrap_or_default();
    LAST.set(Some(Panic { text, source }));
}

/// From now on a panic inside `caught` is kept, and any other is shown.
pub fn prepare() {
    let show = take_hook();
    set_hook(Box::new(move |info| if ASKING.get() { keep(info) } else { show(info) }));
}

/// What a question to the crate answers, or its panic.
pub fn caught<T>(ask: impl FnOnce() -> T) -> Result<T, Panic> {
    ASKING.set(true);
    let answer = catch_unwind(AssertUnwindSafe(ask));
    ASKING.set(false);
    answer.map_err(|_| LAST.take().expect("a panic that was kept"))
}

impl Panic {
    /// Whether the crate stopped at a position that is outside: the chain's, or the file's.
    pub fn is_outside(&self) -> bool {
        self.text.starts_with("graph position too large") || self.text.starts_with("expected lexicographical position less than")
    }

    /// Whether the crate stopped at a word of less than four bytes.
    pub fn is_cut(&self) -> bool {
        self.source.ends_with("file/commit.rs") && self.text.contains("TryFromSliceError")
    }
}
