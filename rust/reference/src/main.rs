//! The commands: print or run test inputs, write or check the kept files.

use std::env;
use std::ffi::OsString;
use std::io::{self, BufWriter, Read, Write};
use std::path::Path;
use std::process::ExitCode;

use reference::compare::{self, Plan, Verdict};
use reference::world::{self, Size, Tally, LARGE, SMALL};
use reference::{coverage, fixtures, images, script, scripts};

const USAGE: &str = "\
usage: reference images-input              print the input of image cases
       reference images-run                read an input, print the transcript
       reference script-list               print the names of the stored scripts
       reference script-input NAME         print a stored script
       reference script-run                read a call script, print the transcript
       reference random-script SEED CALLS  print a random script of about so many calls
       reference coverage                  say what the stored scripts meet
       reference compare PROGRAM SEEDS CALLS [FIRST]
                                           run random scripts on a program, which is a
                                           command and its arguments in one word, and
                                           compare its transcripts with those made here;
                                           SEEDS and CALLS are at least 1
       reference world [SIZE]              go all ways of small worlds; SIZE is small or
                                           large, or plain, moved or bad with the
                                           numbers of blocks, spares, commands and cuts
       reference regenerate ROOT           write the kept files below ROOT
       reference check ROOT                say whether the kept files are current
";

fn main() -> ExitCode {
    let arguments: Vec<OsString> = env::args_os().skip(1).collect();
    match run(&arguments) {
        Some(Ok(code)) => code,
        Some(Err(error)) => {
            eprintln!("reference: {error}");
            ExitCode::FAILURE
        }
        None => {
            eprint!("{USAGE}");
            ExitCode::from(2)
        }
    }
}

/// Does what the arguments say; nothing if they say nothing.
fn run(arguments: &[OsString]) -> Option<io::Result<ExitCode>> {
    let words: Vec<Option<&str>> = arguments.iter().map(|word| word.to_str()).collect();
    let done = match (words.first()?.as_ref()?, &words[1..]) {
        (&"images-input", []) => print(&images::input()),
        (&"images-run", []) => images_run(),
        (&"script-list", []) => print(&script_list()),
        (&"script-input", [name]) => script_input((*name)?),
        (&"script-run", []) => script_run(),
        (&"random-script", [seed, calls]) => {
            let seed = (*seed)?.parse().ok()?;
            let calls = (*calls)?.parse().ok()?;
            print(&scripts::random(seed, calls))
        }
        (&"coverage", []) => print(&scripts::coverage_report()),
        (&"compare", [program, seeds, calls, first @ ..]) => {
            let first = match first {
                [] => 1,
                [first] => (*first)?.parse().ok()?,
                _ => return None,
            };
            let seeds = (*seeds)?.parse().ok()?;
            let calls = (*calls)?.parse().ok()?;
            let Some(plan) = Plan::new(first, seeds, calls) else {
                eprintln!("reference: with 0 seeds or 0 calls nothing is compared");
                return None;
            };
            return Some(compare((*program)?, plan));
        }
        (&"world", sizes) => return Some(world(&world_sizes(sizes)?)),
        (&"regenerate", [_]) => regenerate(Path::new(&arguments[1])),
        (&"check", [_]) => return Some(Ok(check(Path::new(&arguments[1])))),
        _ => return None,
    };
    Some(done.map(|()| ExitCode::SUCCESS))
}

fn images_run() -> io::Result<()> {
    let mut input = vec![];
    io::stdin().read_to_end(&mut input)?;
    print(&images::transcript(&input))
}

fn script_list() -> String {
    let scripts = scripts::all();
    scripts
        .iter()
        .map(|stored| format!("{}\n", stored.name))
        .collect()
}

fn script_input(name: &str) -> io::Result<()> {
    match scripts::named(name) {
        Some(stored) => print(&stored.text),
        None => {
            let message = format!("no stored script is called {name}");
            Err(io::Error::new(io::ErrorKind::NotFound, message))
        }
    }
}

fn script_run() -> io::Result<()> {
    let stdout = BufWriter::new(io::stdout().lock());
    script::run(io::stdin().lock(), stdout)
}

fn compare(program: &str, plan: Plan) -> io::Result<ExitCode> {
    let words: Vec<&str> = program.split_whitespace().collect();
    match compare::compare(&words, plan)? {
        Verdict::Agreed(agreed) => {
            print(&format!("{}{agreed}\n", coverage::report()))?;
            Ok(ExitCode::SUCCESS)
        }
        Verdict::Differ(seed, difference) => {
            let again = format!("random-script {seed} {}", plan.calls);
            print(&format!(
                "seed {seed}: {difference}\n  script:    {again}\n"
            ))?;
            Ok(ExitCode::FAILURE)
        }
    }
}

/// Finds the worlds that the words name.
fn world_sizes(words: &[Option<&str>]) -> Option<Vec<Size>> {
    let words: Option<Vec<&str>> = words.iter().copied().collect();
    match words?[..] {
        [] | ["small"] => Some(SMALL.to_vec()),
        ["large"] => Some(LARGE.to_vec()),
        [table, blocks, spares, commands, cuts] => {
            let numbers = [blocks, spares, commands, cuts].map(|word| word.parse().ok());
            let [blocks, spares, commands, cuts] = numbers;
            Size::new(table, blocks?, spares?, commands?, cuts?).map(|size| vec![size])
        }
        _ => None,
    }
}

/// Searches worlds, and prints what was looked at.
fn world(sizes: &[Size]) -> io::Result<ExitCode> {
    let mut together = Tally::default();
    for size in sizes {
        match world::search(*size) {
            Ok(tally) => {
                print(&format!("{size}: {tally}\n"))?;
                together.add(tally);
            }
            Err(violation) => {
                print(&format!("{size}: not allowed: {violation}\n"))?;
                return Ok(ExitCode::FAILURE);
            }
        }
    }
    print(&format!("together: {together}; all are allowed\n"))?;
    Ok(ExitCode::SUCCESS)
}

fn regenerate(root: &Path) -> io::Result<()> {
    fixtures::regenerate(root)?;
    let written: String = fixtures::all()
        .iter()
        .map(|fixture| format!("{}: {} bytes\n", fixture.path, fixture.contents.len()))
        .collect();
    print(&written)
}

fn check(root: &Path) -> ExitCode {
    let stale = fixtures::stale(root);
    if stale.is_empty() {
        println!("the kept files are current");
        return ExitCode::SUCCESS;
    }
    for message in stale {
        eprintln!("{message}");
    }
    ExitCode::FAILURE
}

fn print(text: &str) -> io::Result<()> {
    let mut stdout = io::stdout().lock();
    stdout.write_all(text.as_bytes())?;
    stdout.flush()
}
