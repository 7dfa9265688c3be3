//! A line on standard error while work takes over a second, on a terminal.

use std::{
    io::{self, IsTerminal, Write},
    sync::mpsc::{self, Receiver, RecvTimeoutError},
    thread,
    time::{Duration, Instant},
};

/// Does the work, and says what is being done from the second second on.
pub fn during<T>(what: &str, work: impl FnOnce() -> T) -> T {
    if !io::stderr().is_terminal() {
        return work();
    }
    let (ended, end) = mpsc::channel::<()>();
    let line = what.to_owned();
    let shower = thread::Builder::new().spawn(move || show(&line, &end));
    let answer = work();
    drop(ended);
    if let Ok(shower) = shower {
        let _ = shower.join();
    }
    answer
}

fn show(what: &str, end: &Receiver<()>) {
    let start = Instant::now();
    let mut wait = Duration::from_secs(1);
    let mut shown = false;
    while end.recv_timeout(wait) == Err(RecvTimeoutError::Timeout) {
        let _ = write!(io::stderr(), "\r{what} ... {} s", start.elapsed().as_secs());
        let _ = io::stderr().flush();
        (shown, wait) = (true, Duration::from_millis(250));
    }
    if shown {
        let _ = write!(io::stderr(), "\r{:width$}\r", "", width = what.chars().count() + 16);
    }
}
