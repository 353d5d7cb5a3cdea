//! The workbench's command line alone: answers what needs no drive.
//!
//! Exit status: 0 answered; 2 a wrong argument; 10 the arguments are right and ask for
//! work, which is the workbench's own.

use std::env;
use std::process::ExitCode;

use usage::Asked;

fn main() -> ExitCode {
    let asked = usage::asked(env::args_os().skip(1));
    let done = asked.and_then(|asked| match asked {
        Asked::Answer(text) => usage::say(&text).map(|()| ExitCode::SUCCESS),
        Asked::Work(_) => Ok(ExitCode::from(10)),
    });
    done.unwrap_or_else(usage::refuse)
}
