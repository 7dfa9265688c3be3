//! Answers as JSON.

use jampreso::{Error, plain};
use std::{fmt::Write, path::Path};

/// An object that is being written.
pub struct Object(String);

impl Object {
    pub fn new() -> Object {
        Object(String::from("{"))
    }

    fn key(&mut self, name: &str) {
        if self.0.len() > 1 {
            self.0.push(',');
        }
        let _ = write!(self.0, "\"{name}\":");
    }

    /// A value that is JSON already, or a number.
    pub fn raw(mut self, name: &str, value: impl std::fmt::Display) -> Object {
        self.key(name);
        let _ = write!(self.0, "{value}");
        self
    }

    pub fn text(mut self, name: &str, value: &str) -> Object {
        self.key(name);
        self.0.push_str(&quoted(value));
        self
    }

    /// A path: its text, and its bytes where that is not all of it.
    pub fn path(self, name: &str, path: &Path) -> Object {
        match path.to_str() {
            Some(text) => self.text(name, text),
            None => {
                let bytes = std::os::unix::ffi::OsStrExt::as_bytes(path.as_os_str());
                let hex: String = bytes.iter().map(|b| format!("{b:02x}")).collect();
                self.text(name, &plain(path)).text(&format!("{name}_bytes"), &hex)
            }
        }
    }

    pub fn done(mut self) -> String {
        self.0.push('}');
        self.0
    }
}

pub fn quoted(text: &str) -> String {
    let mut all = String::from("\"");
    for c in text.chars() {
        match c {
            '"' => all.push_str("\\\""),
            '\\' => all.push_str("\\\\"),
            c if c < ' ' || c == '\u{7f}' || c == '\u{2028}' || c == '\u{2029}' => {
                let _ = write!(all, "\\u{:04x}", c as u32);
            }
            c => all.push(c),
        }
    }
    all.push('"');
    all
}

pub fn array(items: impl IntoIterator<Item = String>) -> String {
    let items: Vec<String> = items.into_iter().collect();
    format!("[{}]", items.join(","))
}

/// An error: a refusal with its number, file and place, or what could not be read.
pub fn error(error: &Error) -> String {
    let object = Object::new();
    match error {
        Error::Refused(r) => {
            let mut object = object.raw("number", r.number).raw("file", r.file).raw("place", r.place);
            if let Some(path) = &r.path {
                object = object.path("path", path);
            }
            if let Some((pos, id)) = &r.commit {
                object = object.raw("position", pos).text("id", &id.to_hex());
            }
            object.text("title", r.title()).text("sentence", r.sentence()).done()
        }
        Error::Unread(u) => object.path("unread", &u.path).text("sentence", &u.why).done(),
        Error::Stopped(why) => object.text("stopped", why).done(),
    }
}
