//! The workbench as a command.
//!
//! Exit status: 0 all as it should be; 1 the history is broken, an expectation is
//! not met, a block could not be read or a file was taken although it is wrong; 2 a
//! wrong argument, plan or file.

use std::env;
use std::fs::File;
use std::io::ErrorKind::BrokenPipe;
use std::io::{self, BufRead, BufReader, BufWriter, IsTerminal, Write};
use std::num::NonZero;
use std::path::{Path, PathBuf};
use std::process::ExitCode;
use std::thread;

use usage::outputs::Output;
use usage::{Asked, Export, Plan, Seeds, Work};
use workbench::faults::Share;
use workbench::image_files::Imported;
use workbench::odds::{self, Ask};
use workbench::picture::{self, Moment};
use workbench::progress::Progress;
use workbench::rescue::Spares;
use workbench::run::{Run, Settings, Stop};
use workbench::table_files::Source;
use workbench::{files, image_files, report, rescue, show, summary, table_files};

fn main() -> ExitCode {
    let asked = usage::asked(env::args_os().skip(1));
    let done = asked.and_then(|asked| match asked {
        Asked::Answer(text) => say(&text),
        Asked::Work(work) => carry_out(work),
    });
    match done {
        Ok(true) => ExitCode::SUCCESS,
        Ok(false) => ExitCode::from(1),
        Err(message) => usage::refuse(message),
    }
}

/// Does what is asked for. Says whether all was as it should be.
fn carry_out(work: Work) -> Result<bool, String> {
    match work {
        Work::Run {
            plan,
            platter,
            trace,
        } => {
            let settings = Settings {
                platter,
                trace,
                ..Settings::default()
            };
            play(plan.as_ref(), settings, io::stdout().lock()).map(|played| played.good)
        }
        Work::Import {
            image,
            platter,
            tags,
            keep_going,
        } => imported(image_files::import(&image, &platter, tags, keep_going)?),
        Work::Export {
            platter,
            image,
            how,
        } => export(&platter, &image, how),
        Work::Spares { platter, to } => spares(&platter, &to),
        Work::Table { source, to } => table(&source, to.as_deref()),
        Work::PutTable {
            table,
            platter,
            replace,
        } => say_lines(&rescue::put(table.as_deref(), &platter, replace)?),
        Work::Convert { from, to } => {
            let done = table_files::convert(&from, &to)?;
            say(&format!("{done}\n"))
        }
        Work::Picture { source, to } => picture_of(&source, &to),
        Work::Timeline { plan, to } => timeline(&plan, &to),
        Work::Odds { plan, odds } => odds_of(&plan, odds),
        Work::Report { plan, to } => page(&plan, &to),
    }
}

/// Writes to standard output.
fn say(text: &str) -> Result<bool, String> {
    usage::say(text).map(|()| true)
}

/// Writes lines to standard output.
fn say_lines(lines: &[String]) -> Result<bool, String> {
    say(&lines
        .iter()
        .map(|line| format!("{line}\n"))
        .collect::<String>())
}

/// Says what a plan's run came to.
#[derive(Default)]
struct Played {
    /// All was as it should be.
    good: bool,
    /// What was not.
    wrong: Option<String>,
    moments: Vec<Moment>,
    /// The files that the plan read.
    inputs: Vec<PathBuf>,
}

/// Runs a plan, or standard input, and shows what happens.
fn play(plan: Option<&Plan>, mut settings: Settings, out: impl Write) -> Result<Played, String> {
    settings.typed = plan.is_none() && io::stdin().is_terminal();
    let typed = settings.typed;
    let input = match plan {
        Some(Plan { path, .. }) => {
            settings.plan = Some(path.clone());
            settings.folder = folder_of(path);
            open(path)?
        }
        None => standard_input(typed),
    };
    let name = plan.map_or("standard input", |plan| plan.name.as_str());
    let mut run = Run::new(settings, BufWriter::new(out))?;
    let played = run.plan(input);
    let (number, inputs, all_done) = (run.number(), run.inputs(), played.is_ok());
    let wrong = summary::not_as_it_should(run.host(), run.expectations());
    match played.and_then(|()| run.finish()) {
        Ok((good, moments)) => Ok(Played {
            good,
            wrong,
            moments,
            inputs,
        }),
        Err(Stop::Empty) if typed => nothing_played("no line was done"),
        Err(Stop::Unspoken) if typed => {
            nothing_played("no line spoke to the drive: there is nothing to sum up")
        }
        Err(Stop::Output(error)) if error.kind() == BrokenPipe => Err(match all_done {
            true => format!("{name}: the output is closed, so the summary is not shown"),
            false => format!("{name}:{number}: the output is closed, so the run ends here"),
        }),
        Err(Stop::Output(error)) => Err(usage::output_fault(error)),
        Err(stop) => Err(format!("{name}{}", stop.told(number))),
    }
}

/// Says why typed lines come to nothing, which is nobody's fault.
fn nothing_played(why: &str) -> Result<Played, String> {
    usage::tell(why);
    Ok(Played {
        good: true,
        ..Played::default()
    })
}

/// Finds the folder in which the files of a plan are sought.
fn folder_of(plan: &Path) -> PathBuf {
    plan.parent().map(Path::to_path_buf).unwrap_or_default()
}

fn open(path: &Path) -> Result<Box<dyn BufRead>, String> {
    match File::open(path) {
        Ok(file) => Ok(Box::new(BufReader::new(file))),
        Err(error) => Err(format!("{} cannot be read: {error}", path.display())),
    }
}

fn standard_input(typed: bool) -> Box<dyn BufRead> {
    if typed {
        usage::tell("lines of a plan, please; help shows them, and Ctrl-D ends");
    }
    Box::new(io::stdin().lock())
}

/// Says what was imported, and whether its checksums were right.
fn imported(done: Imported) -> Result<bool, String> {
    say_lines(&done.lines)?;
    for fault in &done.wrong {
        usage::tell(fault);
    }
    Ok(done.wrong.is_empty())
}

fn export(platter: &Path, image: &Path, how: Export) -> Result<bool, String> {
    let done = image_files::export(platter, image, how)?;
    let written = done.lost.is_empty() || how.keep_going;
    if written {
        let mut lines = vec![done.line(platter, image, how)];
        lines.extend(done.notes(platter, how));
        say_lines(&lines)?;
    }
    if done.lost.is_empty() {
        return Ok(true);
    }
    let (platter, image) = (platter.display(), image.display());
    let blocks = show::ranges(&done.lost);
    let rest = match written {
        true => format!("{image} has zeros for them"),
        false => format!("{image} was not written (with --keep-going it has zeros for them)"),
    };
    usage::tell(&format!(
        "{platter}: blocks that cannot be read: {blocks}; {rest}"
    ));
    Ok(false)
}

/// Takes the spares of a platter off. Says whether all could be read.
fn spares(platter: &Path, to: &Path) -> Result<bool, String> {
    let done = Spares::take(platter, to)?;
    say_lines(&done.lines(platter, to))?;
    match done.fault(platter, to) {
        Some(fault) => {
            eprintln!("workbench: {fault}");
            Ok(false)
        }
        None => Ok(true),
    }
}

/// Shows the table of a platter file, or of a table's image, or takes it off to a file.
fn table(source: &Path, to: Option<&Path>) -> Result<bool, String> {
    let Some(to) = to else {
        return say_lines(&table_files::lines(source)?);
    };
    let taken = rescue::take(source, to)?;
    say_lines(&[taken.line])?;
    match taken.fault {
        Some(fault) => {
            usage::tell(&fault);
            Ok(false)
        }
        None => Ok(true),
    }
}

/// The picture of a platter file, or of a table's image.
fn picture_of(path: &Path, to: &Path) -> Result<bool, String> {
    let source = Source::read(path)?;
    let title = path.file_name().unwrap_or_default().to_string_lossy();
    let svg = picture::platter(&title, source.table().as_ref(), &source.unreadable());
    files::write(&Output::picture(path, to), svg.as_bytes())?;
    Ok(true)
}

/// The picture of a plan's run, on a platter in memory.
fn timeline(plan: &Plan, to: &Path) -> Result<bool, String> {
    let settings = Settings {
        moments: true,
        ..Settings::default()
    };
    let played = play(Some(plan), settings, io::sink())?;
    let name = plan.path.file_name().unwrap_or_default().to_string_lossy();
    let svg = picture::timeline(&format!("The run of {name}"), &played.moments);
    let output = Output::timeline(&plan.path, &played.inputs, to);
    files::write(&output, svg.as_bytes())?;
    if let Some(wrong) = played.wrong {
        eprintln!("workbench: {}: {wrong}", plan.name);
    }
    Ok(played.good)
}

/// The odds of a plan under random faults, or one of their runs.
fn odds_of(plan: &Plan, asked: usage::Odds) -> Result<bool, String> {
    let share = |(some, of)| Share { some, of };
    let ask = Ask {
        program: usage::called(),
        name: plan.name.clone(),
        plan: files::read(&plan.path)?,
        file: Some(plan.path.clone()),
        folder: folder_of(&plan.path),
        rate: share(asked.rate),
        dying: share(asked.dying),
    };
    match asked.seeds {
        Seeds::One { seed, trace } => {
            let settings = Settings {
                trace,
                ..ask.settings(Some(seed))
            };
            play(Some(plan), settings, io::stdout().lock()).map(|played| played.good)
        }
        Seeds::To {
            last,
            jobs,
            json,
            picture,
        } => {
            let jobs = jobs.unwrap_or_else(processors);
            let odds = ask.odds(last, jobs, Progress::new())?;
            say(&odds::text(&odds))?;
            let inputs = &odds.without.inputs;
            if let Some(file) = json {
                let output = Output::odds(&plan.path, inputs, &file);
                files::write(&output, odds::json(&odds).as_bytes())?;
            }
            if let Some(file) = picture {
                let output = Output::odds_picture(&plan.path, inputs, &file);
                files::write(&output, picture::odds(&odds).as_bytes())?;
            }
            Ok(odds.good())
        }
    }
}

/// How many threads the machine runs at once.
fn processors() -> usize {
    thread::available_parallelism().map_or(1, NonZero::get)
}

/// The page of a plan's run, on a platter in memory.
fn page(plan: &Plan, to: &Path) -> Result<bool, String> {
    let name = plan.path.file_name().unwrap_or_default().to_string_lossy();
    let settings = Settings {
        plan: Some(plan.path.clone()),
        folder: folder_of(&plan.path),
        ..Settings::default()
    };
    let page = report::page(&name, settings, open(&plan.path)?);
    let page = page.map_err(|stop| format!("{}{stop}", plan.name))?;
    let output = Output::page(&plan.path, &page.inputs, to);
    files::write(&output, page.html.as_bytes())?;
    let unmet = summary::not_met(page.expectations).map(|unmet| format!("; {unmet}"));
    let unmet = unmet.unwrap_or_default();
    say(&format!("{}: {}{unmet}\n", to.display(), page.last_line))?;
    Ok(page.good)
}
