//! Writing to the terminal: lines, colour where a person looks on, and complaints on standard error.

use std::io::{self, BufWriter, IsTerminal, Stdout, Write};

/// Standard output.
pub struct Out {
    sink: BufWriter<Stdout>,
    colour: bool,
}

#[derive(Clone, Copy)]
pub enum Colour {
    Good = 32,
    Bad = 31,
    Name = 36,
}

impl Out {
    pub fn new() -> Out {
        let stdout = io::stdout();
        let plain = std::env::var_os("NO_COLOR").is_some_and(|v| !v.is_empty()) || std::env::var_os("TERM").is_some_and(|v| v == "dumb");
        let colour = stdout.is_terminal() && !plain;
        Out { sink: BufWriter::with_capacity(1 << 16, stdout), colour }
    }

    /// Text in a colour, on a terminal.
    pub fn paint(&self, colour: Colour, text: &str) -> String {
        if self.colour { format!("\x1b[{}m{text}\x1b[0m", colour as u8) } else { text.to_owned() }
    }

    pub fn line(&mut self, text: &str) -> io::Result<()> {
        self.sink.write_all(text.as_bytes())?;
        self.sink.write_all(b"\n")
    }

    /// A line of a name and a value.
    pub fn field(&mut self, name: &str, value: &str) -> io::Result<()> {
        self.line(&format!("  {name:<13} {value}"))
    }

    pub fn text(&mut self, text: &str) -> io::Result<()> {
        self.sink.write_all(text.as_bytes())
    }

    pub fn end(&mut self) -> io::Result<()> {
        self.sink.flush()
    }
}

/// One line on standard error; if that cannot be written either, there is nobody to tell.
pub fn complain(text: &str) {
    let line: String = text.chars().map(|c| if c.is_control() { ' ' } else { c }).collect();
    let _ = writeln!(io::stderr(), "jampreso: {line}");
}

/// A number with its thousands set apart.
pub fn grouped(number: impl Into<u64>) -> String {
    let digits = number.into().to_string();
    let mut text = String::new();
    for (k, c) in digits.chars().enumerate() {
        if k > 0 && (digits.len() - k) % 3 == 0 {
            text.push(',');
        }
        text.push(c);
    }
    text
}

/// A number and what it counts: one of these, or several of those.
pub fn counted(number: u64, one: &str, several: &str) -> String {
    format!("{} {}", grouped(number), if number == 1 { one } else { several })
}
