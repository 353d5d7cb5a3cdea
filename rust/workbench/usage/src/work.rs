//! The work that a command line asks for.

use std::fs::{self, File};
use std::path::{Path, PathBuf};

use crate::odds::{self, Odds, Seeds};
use crate::options::{Known, Sorted};
use crate::outputs::Output;
use crate::repository::ROOT;
use crate::{near, quote, HELP};

/// Says what is to be done. Files to be read are there, and an output replaces nothing that
/// it must not.
#[derive(Clone, Debug, PartialEq, Eq)]
pub enum Work {
    /// Run a plan, or the lines of standard input.
    Run {
        plan: Option<Plan>,
        /// The platter's file; without one it lives in memory.
        platter: Option<PathBuf>,
        trace: bool,
    },
    Import {
        image: PathBuf,
        platter: PathBuf,
        /// Where the tags come to stand; as `TagPlace::First` if it is not said.
        tags: Option<TagPlace>,
        /// Wrong checksums are told, and end nothing.
        keep_going: bool,
    },
    Export {
        platter: PathBuf,
        image: PathBuf,
        how: Export,
    },
    /// Take the spares off a platter.
    Spares {
        platter: PathBuf,
        to: PathBuf,
    },
    Table {
        /// A platter, or a table's image.
        source: PathBuf,
        /// The file that the platter's table is taken off to.
        to: Option<PathBuf>,
    },
    /// Put a table on a platter.
    PutTable {
        /// The table's image; an empty one without it.
        table: Option<PathBuf>,
        platter: PathBuf,
        /// A good table may be replaced.
        replace: bool,
    },
    /// Turn a table's image into its other form.
    Convert {
        from: PathBuf,
        to: PathBuf,
    },
    Picture {
        /// A platter, or a table's image.
        source: PathBuf,
        to: PathBuf,
    },
    Timeline {
        plan: Plan,
        to: PathBuf,
    },
    /// Run a plan many times under random faults.
    Odds {
        plan: Plan,
        odds: Odds,
    },
    /// Make a page of a plan's run.
    Report {
        plan: Plan,
        to: PathBuf,
    },
}

/// Says how blocks are taken off a platter.
#[derive(Clone, Copy, Debug, Default, PartialEq, Eq)]
pub struct Export {
    pub form: ImageForm,
    pub tags: TagPlace,
    /// Blocks that cannot be read become zeros.
    pub keep_going: bool,
    /// Each block is read at its home sector.
    pub without_table: bool,
}

/// Names the forms of an image.
#[derive(Clone, Copy, Debug, Default, PartialEq, Eq)]
pub enum ImageForm {
    /// Blocks of 532 bytes, as they stand.
    #[default]
    Raw532,
    /// Blocks of 512 bytes, without their tags.
    Raw512,
    /// DiskCopy 4.2, with tags of 20 bytes.
    DiskCopy,
}

/// Says where the 20 tag bytes of a block stand among its 532.
#[derive(Clone, Copy, Debug, Default, PartialEq, Eq)]
pub enum TagPlace {
    #[default]
    First,
    Last,
}

/// A plan in a file.
#[derive(Clone, Debug, PartialEq, Eq)]
pub struct Plan {
    /// As it was asked for.
    pub name: String,
    pub path: PathBuf,
}

/// Reads the words of a command. A plan may be named after its file in the folder of the
/// repository's plans.
pub fn parse(words: &[&str], plans: Option<&Path>) -> Result<Work, String> {
    if let Some(fault) = empty(words) {
        return Err(fault);
    }
    match words {
        ["run", rest @ ..] => run(rest, plans),
        ["week", rest @ ..] => match rest.iter().find(|word| !word.starts_with("--")) {
            Some(word) => Err(format!("week is a plan itself, so not {} too", quote(word))),
            None => run(&[rest, &[&week(plans)?]].concat(), plans),
        },
        ["import", rest @ ..] => import(rest),
        ["export", rest @ ..] => export(rest),
        ["table", rest @ ..] => table(rest),
        ["put-table", rest @ ..] => put_table(rest),
        ["convert", from, to] => Ok(Work::Convert {
            from: readable(from)?,
            to: new(to, "the table", (from, "what is converted"))?,
        }),
        ["picture", source, to] => picture(source, to),
        ["timeline", name, to] => timeline(plan(name, plans)?, to),
        ["odds", rest @ ..] if !rest.is_empty() => {
            let (name, asked) = odds::parse(rest)?;
            odds(plan(name, plans)?, asked)
        }
        ["report", name, to] => report(plan(name, plans)?, to),
        [] => Err(String::from("what is to be done? see --help")),
        [first, ..] => Err(match help_of(first) {
            Some(line) => usage_is(line),
            None => no_command(first),
        }),
    }
}

/// Says which word of a command is empty, if one is: it names no file, and is no value.
fn empty(words: &[&str]) -> Option<String> {
    let behind = words.windows(2).find(|pair| pair[1].is_empty())?[0];
    Some(format!(
        "the argument behind {} is empty; see --help",
        quote(behind)
    ))
}

fn usage_is(line: &str) -> String {
    format!("the usage is {line}; see --help")
}

/// Says how a command is called that has other names than it needs.
fn misused<T>(command: &str) -> Result<T, String> {
    Err(usage_is(help_of(command).unwrap_or(command)))
}

fn run(words: &[&str], plans: Option<&Path>) -> Result<Work, String> {
    let (mut name, mut platter, mut trace) = (None, None, false);
    let mut words = words.iter();
    while let Some(&word) = words.next() {
        match word {
            "--trace" => trace = true,
            "--platter" => {
                let file = words.next().ok_or("--platter needs a file")?;
                platter = Some(PathBuf::from(file));
            }
            option if option.starts_with("--") => {
                return Err(near::no_option(option, "run", &["--platter", "--trace"]));
            }
            word if name.is_none() => name = Some(word),
            more => return Err(format!("one plan is run at a time, so not \"{more}\" too")),
        }
    }
    Ok(Work::Run {
        plan: name.map(|name| plan(name, plans)).transpose()?,
        platter,
        trace,
    })
}

fn import(words: &[&str]) -> Result<Work, String> {
    let known = Known {
        command: "import",
        flags: &["--keep-going"],
        valued: &["--tags"],
    };
    let words = Sorted::new(words, known)?;
    let [image, platter] = words.names() else {
        return misused("import");
    };
    Ok(Work::Import {
        image: readable(image)?,
        platter: new(platter, "the platter", (image, "what is imported"))?,
        tags: words.value("--tags").map(tag_place).transpose()?,
        keep_going: words.has("--keep-going"),
    })
}

fn export(words: &[&str]) -> Result<Work, String> {
    let known = Known {
        command: "export",
        flags: &["--keep-going", "--spares", "--without-table"],
        valued: &["--form", "--tags"],
    };
    let words = Sorted::new(words, known)?;
    let [platter, image] = words.names() else {
        return misused("export");
    };
    if words.has("--spares") {
        return spares(&words, platter, image);
    }
    let form = words.value("--form").map(image_form).transpose()?;
    let tags = words.value("--tags").map(tag_place).transpose()?;
    let form = form.unwrap_or_default();
    if form == ImageForm::Raw532 && tags.is_some() {
        let reason = "blocks of 532 bytes are written as they are";
        return Err(format!(
            "--tags goes with --form raw512 or diskcopy: {reason}"
        ));
    }
    Ok(Work::Export {
        platter: readable(platter)?,
        image: new(
            image,
            "the image",
            (platter, "the platter that is exported"),
        )?,
        how: Export {
            form,
            tags: tags.unwrap_or_default(),
            keep_going: words.has("--keep-going"),
            without_table: words.has("--without-table"),
        },
    })
}

fn spares(words: &Sorted, platter: &str, to: &str) -> Result<Work, String> {
    if !words.has_alone("--spares") {
        let message = "--spares goes with no other option: the spares are taken off as they are";
        return Err(String::from(message));
    }
    Ok(Work::Spares {
        platter: readable(platter)?,
        to: new(
            to,
            "what the spares hold",
            (platter, "the platter whose spares are taken off"),
        )?,
    })
}

fn image_form(word: &str) -> Result<ImageForm, String> {
    match word {
        "raw532" => Ok(ImageForm::Raw532),
        "raw512" => Ok(ImageForm::Raw512),
        "diskcopy" => Ok(ImageForm::DiskCopy),
        _ => Err(format!(
            "\"{word}\" is no form of an image: raw532, raw512 or diskcopy"
        )),
    }
}

fn tag_place(word: &str) -> Result<TagPlace, String> {
    match word {
        "first" => Ok(TagPlace::First),
        "last" => Ok(TagPlace::Last),
        _ => Err(format!("\"{word}\" is no place of tags: first or last")),
    }
}

fn table(words: &[&str]) -> Result<Work, String> {
    let known = Known {
        command: "table",
        flags: &[],
        valued: &["--to"],
    };
    let words = Sorted::new(words, known)?;
    let [source] = words.names() else {
        return misused("table");
    };
    let from = (*source, "the platter whose table is taken off");
    let to = words.value("--to");
    Ok(Work::Table {
        source: readable(source)?,
        to: to.map(|to| new(to, "the table", from)).transpose()?,
    })
}

fn put_table(words: &[&str]) -> Result<Work, String> {
    let known = Known {
        command: "put-table",
        flags: &["--empty", "--replace"],
        valued: &[],
    };
    let words = Sorted::new(words, known)?;
    let (table, platter) = match (words.has("--empty"), words.names()) {
        (true, [platter]) => (None, platter),
        (false, [table, platter]) => (Some(readable(table)?), platter),
        _ => return misused("put-table"),
    };
    Ok(Work::PutTable {
        table,
        platter: readable(platter)?,
        replace: words.has("--replace"),
    })
}

fn picture(source: &str, to: &str) -> Result<Work, String> {
    let source = readable(source)?;
    let to = checked(Output::picture(&source, Path::new(to)))?;
    Ok(Work::Picture { source, to })
}

fn timeline(plan: Plan, to: &str) -> Result<Work, String> {
    let to = checked(Output::timeline(&plan.path, &[], Path::new(to)))?;
    Ok(Work::Timeline { plan, to })
}

fn odds(plan: Plan, odds: Odds) -> Result<Work, String> {
    if let Seeds::To { json, picture, .. } = &odds.seeds {
        if let Some(to) = json {
            Output::odds(&plan.path, &[], to).check()?;
        }
        if let Some(to) = picture {
            Output::odds_picture(&plan.path, &[], to).check()?;
        }
    }
    Ok(Work::Odds { plan, odds })
}

fn report(plan: Plan, to: &str) -> Result<Work, String> {
    let to = checked(Output::page(&plan.path, &[], Path::new(to)))?;
    Ok(Work::Report { plan, to })
}

/// Finds how a command is called, in the help.
fn help_of(command: &str) -> Option<&'static str> {
    let mut lines = HELP.lines().filter_map(|line| line.strip_prefix("  "));
    let line = lines.find(|line| line.split(' ').take(2).eq(["workbench", command]))?;
    line.split("  ").next()
}

/// Says that a word is no command, and which may be meant.
fn no_command(word: &str) -> String {
    let lines = HELP
        .lines()
        .filter_map(|line| line.strip_prefix("  workbench "));
    let commands: Vec<&str> = lines.filter_map(|line| line.split(' ').next()).collect();
    near::see_help(&format!("{} is no command", quote(word)), word, &commands)
}

/// Finds the plan in the file of this name, or else the repository's plan of this name.
fn plan(name: &str, plans: Option<&Path>) -> Result<Plan, String> {
    let path = match known(name, plans) {
        Some(known) if !Path::new(name).is_file() => known,
        _ => readable(name).map_err(|fault| fault + &near_plan(name, plans))?,
    };
    Ok(Plan {
        name: name.to_string(),
        path,
    })
}

/// Finds the repository's plan of this name.
fn known(name: &str, plans: Option<&Path>) -> Option<PathBuf> {
    let path = plans?.join(format!("{name}.plan"));
    path.is_file().then_some(path)
}

/// Says which of the repository's plans may be meant by a file that is not there.
fn near_plan(name: &str, plans: Option<&Path>) -> String {
    let file = Path::new(name);
    let word = file.file_stem().unwrap_or_default().to_string_lossy();
    if file.exists() {
        return String::new();
    }
    let names = plans.map_or(vec![], names_of_plans);
    let names: Vec<&str> = names.iter().map(String::as_str).collect();
    near::meant(&word, &names)
}

/// Lists the names of the plans in a folder, in their order.
fn names_of_plans(folder: &Path) -> Vec<String> {
    let entries = fs::read_dir(folder).into_iter().flatten().flatten();
    let files = entries.map(|entry| PathBuf::from(entry.file_name()));
    let plans = files.filter(|file| file.extension().is_some_and(|end| end == "plan"));
    let mut names: Vec<String> = plans
        .filter_map(|plan| plan.file_stem()?.to_str().map(String::from))
        .collect();
    names.sort();
    names
}

/// Finds the file of the mission's week.
fn week(plans: Option<&Path>) -> Result<String, String> {
    let path = known("week", plans).and_then(|path| path.into_os_string().into_string().ok());
    path.ok_or_else(|| format!("{ROOT} names no folder with plans/week.plan"))
}

/// Looks whether a file can be read. A pipe is not opened, since it is read only once.
fn readable(name: &str) -> Result<PathBuf, String> {
    let fault = |error| format!("{name} cannot be read: {error}");
    let kind = fs::metadata(name).map_err(fault)?.file_type();
    if kind.is_dir() {
        return Err(format!("{name} cannot be read: it is a folder"));
    }
    if kind.is_file() {
        File::open(name).map_err(fault)?;
    }
    Ok(PathBuf::from(name))
}

/// Looks whether a file is not there yet, since this output, which is made from another
/// file, replaces nothing.
fn new(name: &str, what: &'static str, from: (&str, &'static str)) -> Result<PathBuf, String> {
    let output = Output::to_new(Path::new(name), what);
    checked(output.made_from(Path::new(from.0), from.1))
}

/// Looks whether an output may go where it is to go, and returns that.
fn checked(output: Output) -> Result<PathBuf, String> {
    output.check()?;
    Ok(output.to)
}

#[cfg(test)]
mod tests {
    use super::*;

    /// A file that is there, one that is not, and a folder: cargo runs tests in that of
    /// the package.
    const HERE: &str = "./Cargo.toml";
    const NOWHERE: &str = "./none";
    const FOLDER: &str = ".";
    const PLANS: &str = "../../../plans";
    const PUT_TABLE: &str = "workbench put-table [--replace] FILE|--empty PLATTER";

    fn asks(words: &[&str]) -> Result<Work, String> {
        parse(words, Some(Path::new(PLANS)))
    }

    fn fault(words: &[&str]) -> String {
        asks(words).expect_err("a fault")
    }

    #[test]
    fn plans_by_file_and_by_name() {
        let of = |name: &str, path: String| Plan {
            name: String::from(name),
            path: PathBuf::from(path),
        };
        assert_eq!(plan(HERE, None), Ok(of(HERE, String::from(HERE))));
        let latch = of("latch", format!("{PLANS}/latch.plan"));
        let words = ["run", "--platter", "p", "latch", "--trace"];
        let work = Work::Run {
            plan: Some(latch.clone()),
            platter: Some(PathBuf::from("p")),
            trace: true,
        };
        assert_eq!(asks(&words), Ok(work));
        let to = PathBuf::from("o");
        assert_eq!(
            asks(&["timeline", "latch", "o"]),
            Ok(Work::Timeline {
                plan: latch.clone(),
                to: to.clone()
            })
        );
        assert_eq!(
            asks(&["report", "latch", "o"]),
            Ok(Work::Report { plan: latch, to })
        );
        let file = format!("{PLANS}/week.plan");
        let week = |trace| Work::Run {
            plan: Some(of(&file, file.clone())),
            platter: None,
            trace,
        };
        assert_eq!(asks(&["week"]), Ok(week(false)));
        assert_eq!(asks(&["week", "--trace"]), Ok(week(true)));
        for words in [&["run", "none"][..], &["timeline", "none", "o"]] {
            assert!(fault(words).starts_with("none cannot be read: "));
        }
    }

    #[test]
    fn near_plans_of_the_repository_are_offered() {
        let missing = "cannot be read: No such file or directory (os error 2)";
        let odds = ["odds", "baner", "--seeds", "9", "--rate", "1/50"];
        for (words, name, meant) in [
            (&["run", "wek"][..], "wek", "; did you mean \"week\"?"),
            (
                &["run", "week.plan"],
                "week.plan",
                "; did you mean \"week\"?",
            ),
            (
                &["timeline", "plans/ltach.plan", "o"],
                "plans/ltach.plan",
                "; did you mean \"latch\"?",
            ),
            (
                &["report", "Power", "o"],
                "Power",
                "; did you mean \"power\"?",
            ),
            (&odds, "baner", "; did you mean \"banner\"?"),
            (&["run", "xyzzy"], "xyzzy", ""),
        ] {
            assert_eq!(fault(words), format!("{name} {missing}{meant}"));
        }
        // Without the folder of plans, and for a file that is there, nothing is offered.
        assert_eq!(parse(&["run", "wek"], None), Err(format!("wek {missing}")));
        assert_eq!(fault(&["run", FOLDER]), ". cannot be read: it is a folder");
    }

    #[test]
    fn without_the_folder_of_plans_there_is_no_week() {
        let message = "WORKBENCH_ROOT names no folder with plans/week.plan";
        for plans in [None, Some(Path::new(NOWHERE))] {
            assert_eq!(parse(&["week"], plans), Err(String::from(message)));
            let latch = parse(&["run", "latch"], plans).expect_err("no plan");
            assert!(latch.starts_with("latch cannot be read: "), "{latch}");
        }
    }

    #[test]
    fn standard_input_is_a_plan_without_a_name() {
        let work = Work::Run {
            plan: None,
            platter: None,
            trace: false,
        };
        assert_eq!(asks(&["run"]), Ok(work));
    }

    #[test]
    fn options_of_run() {
        assert_eq!(fault(&["run", "--platter"]), "--platter needs a file");
        assert_eq!(
            fault(&["run", "--fast"]),
            "\"--fast\" is no option of run; see --help"
        );
        assert_eq!(
            fault(&["run", "--platform", "x"]),
            "\"--platform\" is no option of run; did you mean \"--platter\"? see --help"
        );
        assert!(fault(&["run", "week", "latch"]).ends_with("so not \"latch\" too"));
        assert_eq!(
            fault(&["week", "latch"]),
            "week is a plan itself, so not \"latch\" too"
        );
    }

    #[test]
    fn empty_arguments_are_refused() {
        let odds = ["odds", HERE, "--seeds", "9", "--rate", "1/50"];
        for words in [
            &["run", ""][..],
            &["run", "--platter", "", HERE],
            &["run", HERE, "--platter", ""],
            &["week", ""],
            &["import", HERE, ""],
            &["import", "", NOWHERE],
            &["export", HERE, ""],
            &["table", ""],
            &["table", HERE, "--to", ""],
            &["put-table", "", HERE],
            &["convert", HERE, ""],
            &["picture", HERE, ""],
            &["timeline", HERE, ""],
            &["report", HERE, ""],
            &[&odds[..], &["--json", ""]].concat(),
            &["odds", HERE, "--seeds", ""],
        ] {
            let at = words.iter().position(|word| word.is_empty());
            let before = words[at.expect("an empty word") - 1];
            let message = format!("the argument behind \"{before}\" is empty; see --help");
            assert_eq!(fault(words), message, "{words:?}");
        }
        assert_eq!(fault(&[""]), "\"\" is no command; see --help");
    }

    #[test]
    fn files_to_be_read_are_there_and_new_ones_are_not() {
        let (here, nowhere) = (PathBuf::from(HERE), PathBuf::from(NOWHERE));
        let work = Work::Export {
            platter: here.clone(),
            image: nowhere.clone(),
            how: Export::default(),
        };
        assert_eq!(asks(&["export", HERE, NOWHERE]), Ok(work));
        assert!(fault(&["export", NOWHERE, NOWHERE]).contains("/none cannot be read: "));
        assert_eq!(
            fault(&["export", HERE, HERE]),
            "./Cargo.toml is the platter that is exported (name another file): the image is not \
             written there"
        );
        let work = Work::Import {
            image: here.clone(),
            platter: nowhere.clone(),
            tags: None,
            keep_going: false,
        };
        assert_eq!(asks(&["import", HERE, NOWHERE]), Ok(work));
        assert!(fault(&["import", NOWHERE, NOWHERE]).contains("/none cannot be read: "));
        assert!(fault(&["import", HERE, HERE]).contains(" is what is imported (name "));
        assert!(fault(&["import", FOLDER, NOWHERE]).ends_with("it is a folder"));
        let work = Work::Convert {
            from: here.clone(),
            to: nowhere.clone(),
        };
        assert_eq!(asks(&["convert", HERE, NOWHERE]), Ok(work));
        assert!(fault(&["convert", NOWHERE, NOWHERE]).contains("/none cannot be read: "));
        assert!(fault(&["convert", HERE, HERE]).contains(" is what is converted (name "));
        let work = Work::Picture {
            source: here,
            to: nowhere,
        };
        assert_eq!(asks(&["picture", HERE, NOWHERE]), Ok(work));
        assert!(fault(&["picture", NOWHERE, HERE]).contains("/none cannot be read: "));
    }

    #[test]
    fn pictures_replace_pictures_alone() {
        for (words, why) in [
            (["picture", HERE, "Cargo.toml"], "what is drawn"),
            (
                ["timeline", HERE, "./src/../Cargo.toml"],
                "the plan that is drawn",
            ),
            (["timeline", "latch", HERE], "there already, and no picture"),
        ] {
            let message = format!("{} is {why}: the picture is not written there", words[2]);
            assert_eq!(fault(&words), message);
        }
    }

    #[test]
    fn odds_and_pages_replace_their_like_alone() {
        let odds = ["odds", HERE, "--seeds", "9", "--rate", "1/50"];
        let to = |option, file| [&odds[..], &[option, file]].concat();
        for (words, why, what) in [
            (
                to("--json", HERE),
                "the plan that is run",
                "the JSON of the odds",
            ),
            (to("--picture", HERE), "the plan that is run", "the picture"),
            (
                to("--json", "src/lib.rs"),
                "there already, and no JSON of odds",
                "the JSON of the odds",
            ),
            (
                to("--picture", "src/lib.rs"),
                "there already, and no picture",
                "the picture",
            ),
            (
                vec!["report", HERE, "Cargo.toml"],
                "the plan that is run",
                "the page",
            ),
            (
                vec!["report", HERE, "src/lib.rs"],
                "there already, and no page of a run",
                "the page",
            ),
        ] {
            let file = words.last().expect("a file");
            let message = format!("{file} is {why}: {what} is not written there");
            assert_eq!(fault(&words), message);
        }
    }

    #[test]
    fn options_of_import() {
        let work = Work::Import {
            image: PathBuf::from(HERE),
            platter: PathBuf::from(NOWHERE),
            tags: Some(TagPlace::Last),
            keep_going: true,
        };
        let words = ["import", "--keep-going", HERE, NOWHERE, "--tags", "last"];
        assert_eq!(asks(&words), Ok(work));
    }

    #[test]
    fn options_of_export() {
        let keep_going = Export {
            keep_going: true,
            ..Export::default()
        };
        let raw512 = Export {
            form: ImageForm::Raw512,
            tags: TagPlace::Last,
            ..Export::default()
        };
        let rescued = Export {
            form: ImageForm::DiskCopy,
            without_table: true,
            ..Export::default()
        };
        for (words, how) in [
            ("--keep-going", keep_going),
            ("--form raw512 --tags last", raw512),
            ("--without-table --form diskcopy --tags first", rescued),
            ("--form raw532", Export::default()),
        ] {
            let work = Work::Export {
                platter: PathBuf::from(HERE),
                image: PathBuf::from(NOWHERE),
                how,
            };
            let words: Vec<&str> = words.split(' ').collect();
            let words = [&["export", HERE, NOWHERE], &words[..]].concat();
            assert_eq!(asks(&words), Ok(work));
        }
    }

    #[test]
    fn spares_go_to_a_new_file() {
        let work = Work::Spares {
            platter: PathBuf::from(HERE),
            to: PathBuf::from(NOWHERE),
        };
        assert_eq!(asks(&["export", "--spares", HERE, NOWHERE]), Ok(work));
        let message = fault(&["export", HERE, HERE, "--spares"]);
        let words = "what the spares hold is not written there";
        assert!(message.ends_with(words), "{message}");
    }

    #[test]
    fn wrong_options_of_import_and_export() {
        for (words, said) in [
            (&["--form", "dmg"][..], "\"dmg\" is no form of an image: "),
            (&["--tags", "both"], "\"both\" is no place of tags: "),
            (&["--tags", "last"], "--tags goes with --form raw512 or "),
            (&["--replace"], "\"--replace\" is no option of export; "),
            (&["--form"], "--form needs a form: "),
            (
                &["--spares", "--keep-going"],
                "--spares goes with no other option: ",
            ),
        ] {
            let message = fault(&[&["export", HERE, NOWHERE], words].concat());
            assert!(message.starts_with(said), "{message}");
        }
        let message = fault(&["import", "--form", "raw512", HERE, NOWHERE]);
        assert_eq!(message, "\"--form\" is no option of import; see --help");
        assert_eq!(
            fault(&["import", HERE, NOWHERE, "--tags"]),
            "--tags needs a place: first or last"
        );
    }

    #[test]
    fn tables_are_shown_taken_off_and_put() {
        let (here, nowhere) = (PathBuf::from(HERE), PathBuf::from(NOWHERE));
        let shown = |to| Work::Table {
            source: here.clone(),
            to,
        };
        assert_eq!(asks(&["table", HERE]), Ok(shown(None)));
        let words = ["table", HERE, "--to", NOWHERE];
        assert_eq!(asks(&words), Ok(shown(Some(nowhere))));
        assert!(fault(&["table", NOWHERE]).contains("/none cannot be read: "));
        let message = fault(&["table", HERE, "--to", "src/../Cargo.toml"]);
        assert!(message.contains(" is the platter whose table is taken off (name "));
        assert_eq!(fault(&["table", HERE, "--to"]), "--to needs a file");
        let put = |table, replace| Work::PutTable {
            table,
            platter: here.clone(),
            replace,
        };
        let image = Some(here.clone());
        assert_eq!(
            asks(&["put-table", HERE, HERE]),
            Ok(put(image.clone(), false))
        );
        let words = ["put-table", "--replace", HERE, HERE];
        assert_eq!(asks(&words), Ok(put(image, true)));
        assert_eq!(asks(&["put-table", "--empty", HERE]), Ok(put(None, false)));
        let words = ["put-table", HERE, "--empty", "--replace"];
        assert_eq!(asks(&words), Ok(put(None, true)));
        assert!(fault(&["put-table", NOWHERE, HERE]).contains("/none cannot be read: "));
        assert!(fault(&["put-table", HERE, NOWHERE]).contains("/none cannot be read: "));
    }

    #[test]
    fn a_command_with_wrong_arguments_is_shown() {
        for (words, shown) in [
            (
                &["import", "a"][..],
                "workbench import [--keep-going] [--tags PLACE] IMAGE PLATTER",
            ),
            (&["export"], "workbench export [OPTIONS] PLATTER IMAGE"),
            (
                &["export", "a", "b", "c"],
                "workbench export [OPTIONS] PLATTER IMAGE",
            ),
            (&["table"], "workbench table PLATTER [--to FILE]"),
            (&["put-table", "a"], PUT_TABLE),
            (&["put-table", "--empty", "a", "b"], PUT_TABLE),
            (&["convert", "a"], "workbench convert FROM TO"),
            (
                &["picture", "a", "b", "c"],
                "workbench picture PLATTER OUT.svg",
            ),
            (&["timeline", "week"], "workbench timeline PLAN OUT.svg"),
            (&["odds"], "workbench odds PLAN --seeds N --rate A/B [..]"),
            (&["report", "week"], "workbench report PLAN OUT.html"),
        ] {
            assert_eq!(fault(words), format!("the usage is {shown}; see --help"));
        }
        let meant = "\"ran\" is no command; did you mean \"run\"? see --help";
        assert_eq!(fault(&["ran", "a"]), meant);
        assert_eq!(fault(&["xyzzy"]), "\"xyzzy\" is no command; see --help");
        assert_eq!(fault(&[]), "what is to be done? see --help");
    }
}
