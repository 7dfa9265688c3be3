//! What a refusal's number means.

use crate::{fail::Fail, json, out::Out};
use jampreso::refusal::{self, Meaning, Place, Subject};

pub fn run(out: &mut Out, number: &str, as_json: bool) -> Result<u8, Fail> {
    let meaning = number.parse().ok().and_then(refusal::meaning);
    let Some(meaning) = meaning else {
        let known: Vec<String> = refusal::all().iter().map(|m| m.number.to_string()).collect();
        return Err(Fail::Usage(format!("no refusal has the number {number:?}; there are {}", known.join(", "))));
    };
    if as_json {
        out.line(&object(meaning))?;
    } else {
        out.line(&format!("{}: {}", meaning.number, meaning.title))?;
        out.line(meaning.sentence)?;
        out.line(&format!("It is about {}.{}", about(meaning), place(meaning)))?;
    }
    Ok(0)
}

fn about(meaning: &Meaning) -> &'static str {
    match meaning.subject {
        Subject::Chain => "the chain as a whole",
        Subject::Question => "what was asked",
        Subject::File => "one file",
    }
}

fn place(meaning: &Meaning) -> String {
    match meaning.place {
        Place::Nothing => String::new(),
        Place::Commit => " Its place is the commit's position in the file, from 0 on.".to_owned(),
        other => format!(" Its place is the number of the {}, from 0 on.", other.noun()),
    }
}

fn object(meaning: &Meaning) -> String {
    let object = json::Object::new().raw("number", meaning.number).text("title", meaning.title);
    object.text("sentence", meaning.sentence).text("about", about(meaning)).text("place", meaning.place.noun()).done()
}
