//! Why a command ended early, and the status it ends with.

use crate::out;
use jampreso::Error;

#[derive(Debug)]
pub enum Fail {
    /// A refusal, or something that could not be read.
    Error(Error),
    /// The words of the command are wrong.
    Usage(String),
    /// What was asked for is not there.
    Absent(String),
    /// The output could not be written.
    Output(std::io::Error),
    /// A file could not be written.
    Write(std::path::PathBuf, std::io::Error),
}

impl Fail {
    /// Says why on one line and gives the status: 1 where bytes were refused or hold nothing such, 2 where something could not be read or
    /// written.
    pub fn end(self) -> u8 {
        match self {
            Fail::Error(e) => {
                out::complain(&e.to_string());
                status(&e)
            }
            Fail::Usage(why) => {
                out::complain(&format!("{why} ('jampreso --help' says more)"));
                2
            }
            Fail::Absent(why) => {
                out::complain(&why);
                1
            }
            Fail::Output(e) if e.kind() == std::io::ErrorKind::BrokenPipe => 0,
            Fail::Write(path, e) => {
                out::complain(&format!("could not write {}: {e}", jampreso::plain(&path)));
                2
            }
            Fail::Output(e) => {
                out::complain(&format!("could not write: {e}"));
                2
            }
        }
    }
}

/// The status of an error.
pub fn status(error: &Error) -> u8 {
    if error.refused().is_some() { 1 } else { 2 }
}

impl From<Error> for Fail {
    fn from(error: Error) -> Fail {
        Fail::Error(error)
    }
}

impl From<std::io::Error> for Fail {
    fn from(error: std::io::Error) -> Fail {
        Fail::Output(error)
    }
}
