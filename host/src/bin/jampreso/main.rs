//! The command-line tool: a person's view of commit-graph files.
#![forbid(unsafe_code)]

mod args;
mod commit;
mod explain;
mod fail;
mod files;
mod help;
mod json;
mod list;
mod log;
mod out;
mod page;
mod progress;
mod show;
mod sight;
mod time;
mod verify;

use args::{Args, Command};
use fail::Fail;
use std::process::ExitCode;

fn main() -> ExitCode {
    // No input should come here. If one does, it is said on one line.
    std::panic::set_hook(Box::new(|info| {
        let at = info.location().map_or(String::new(), |l| format!(" ({}:{})", l.file(), l.line()));
        out::complain(&format!("internal error{at}; nothing of what was shown should be relied on"));
        std::process::exit(3);
    }));
    match run() {
        Ok(code) => ExitCode::from(code),
        Err(fail) => ExitCode::from(fail.end()),
    }
}

fn run() -> Result<u8, Fail> {
    let args = Args::read(std::env::args_os().skip(1))?;
    let mut out = out::Out::new();
    let code = match &args.command {
        Command::Help(topic) => help::run(&mut out, topic.as_deref())?,
        Command::Version => out.line(concat!("jampreso ", env!("CARGO_PKG_VERSION"))).map(|()| 0)?,
        Command::Explain(number) => explain::run(&mut out, number, args.json)?,
        Command::Verify(path) => verify::run(&mut out, path, args.json)?,
        Command::Show(path, which) => show::run(&mut out, path, which.as_deref(), args.json)?,
        Command::List(path) => list::run(&mut out, path, args.json)?,
        Command::Log(path, which) => log::run(&mut out, path, which, args.json)?,
        Command::Files(path) => match &args.html {
            Some(to) => page::run(path, to)?,
            None => files::run(&mut out, path, args.json)?,
        },
    };
    out.end()?;
    Ok(code)
}
