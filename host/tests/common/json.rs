//! A reader of JSON that only says whether a text is some.

/// The whole text is one JSON value.
pub fn sound(text: &str) -> bool {
    let text = text.trim();
    value(text.as_bytes(), 0) == Some(text.len())
}

fn blank(s: &[u8], at: usize) -> usize {
    at + s[at..].iter().take_while(|b| b.is_ascii_whitespace()).count()
}

fn value(s: &[u8], at: usize) -> Option<usize> {
    let at = blank(s, at);
    match s.get(at)? {
        b'{' => items(s, at + 1, b'}', |s, at| {
            let at = blank(s, string(s, blank(s, at))?);
            (s.get(at) == Some(&b':')).then_some(at + 1).and_then(|at| value(s, at))
        }),
        b'[' => items(s, at + 1, b']', value),
        b'"' => string(s, at),
        b'0'..=b'9' => Some(at + s[at..].iter().take_while(|b| b.is_ascii_digit()).count()),
        _ => ["true", "false", "null"].iter().find(|w| s[at..].starts_with(w.as_bytes())).map(|w| at + w.len()),
    }
}

fn items(s: &[u8], at: usize, close: u8, item: fn(&[u8], usize) -> Option<usize>) -> Option<usize> {
    let mut at = blank(s, at);
    if s.get(at) == Some(&close) {
        return Some(at + 1);
    }
    loop {
        at = blank(s, item(s, at)?);
        match s.get(at)? {
            b',' => at += 1,
            b if *b == close => return Some(at + 1),
            _ => return None,
        }
    }
}

fn string(s: &[u8], at: usize) -> Option<usize> {
    if s.get(at) != Some(&b'"') {
        return None;
    }
    let mut at = at + 1;
    loop {
        match s.get(at)? {
            b'"' => return Some(at + 1),
            b'\\' => at += 2,
            b if *b < b' ' => return None,
            _ => at += 1,
        }
    }
}
