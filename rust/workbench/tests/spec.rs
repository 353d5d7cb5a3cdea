//! `docs/SPEC.md`: each rule has its number and a line that says where it lives, and what
//! that line names is there.

mod common;

use std::fs;
use std::path::PathBuf;

use common::root;

/// The words of a line, in their order.
const KINDS: [&str; 5] = ["defined", "coded", "proved", "refused", "tested"];

/// The words that no rule may be without.
const NEEDED: [&str; 3] = ["defined", "refused", "tested"];

/// The crates of which each file of definitions is cited.
const DEFINING: [&str; 12] = [
    "geometry",
    "lists",
    "table",
    "buffer",
    "image",
    "drive",
    "parity",
    "print_parity",
    "board",
    "packed",
    "crossing",
    "bumivondra",
];

/// Holds a rule.
#[derive(Default)]
struct Rule {
    number: String,
    /// What it says, without the line.
    text: String,
    /// Each line that says where it lives.
    lines: Vec<String>,
}

/// Holds what a rule cites at one place, as `PLACE: NAME, NAME`.
struct Citation<'a> {
    kind: &'a str,
    place: &'a str,
    names: Vec<&'a str>,
}

fn spec() -> String {
    fs::read_to_string(root().join("docs/SPEC.md")).expect("the specification")
}

fn is_capital(name: &str) -> bool {
    name.starts_with(|c: char| c.is_ascii_uppercase())
}

/// Returns the rules of the numbered sections. What stands before the first rule of a section
/// belongs to none.
fn rules(document: &str) -> Vec<Rule> {
    let mut rules: Vec<Rule> = Vec::new();
    let mut section = 0;
    let mut rule = 0;
    for block in document.split("\n\n") {
        if let Some(heading) = block.strip_prefix("## ") {
            let number = heading.split_once(". ").and_then(|(n, _)| n.parse().ok());
            (section, rule) = (number.unwrap_or(0), 0);
        } else if section == 0 {
            continue;
        } else if let Some(number) = number_of(block, section) {
            rule += 1;
            assert_eq!(
                number,
                format!("{section}.{rule}"),
                "the next rule's number"
            );
            let (number, text) = (String::from(number), String::from(block));
            let lines = Vec::new();
            rules.push(Rule {
                number,
                text,
                lines,
            });
        } else if rule > 0 {
            let last = rules.last_mut().expect("a rule");
            match block.strip_prefix("<sub>") {
                Some(line) => last.lines.push(line.replace('\n', " ")),
                None => last.text += block,
            }
        }
    }
    rules
}

/// Returns the number with which a rule begins.
fn number_of(block: &str, section: usize) -> Option<&str> {
    let (number, _) = block.strip_prefix("**")?.split_once(' ')?;
    number.starts_with(&format!("{section}.")).then_some(number)
}

/// Returns what a line cites, or the part of it that has no known form.
fn citations(line: &str) -> Result<Vec<Citation<'_>>, String> {
    let line = line
        .trim_end()
        .strip_suffix("</sub>")
        .ok_or("no end of a line")?;
    let mut cited = Vec::new();
    let mut before = None;
    for part in line.split(" · ") {
        let (kind, quoted) = part.trim().split_once(' ').ok_or(part)?;
        let place = KINDS.iter().position(|known| *known == kind).ok_or(part)?;
        if before.is_some_and(|before| before >= place) {
            return Err(format!("{kind} is not in its order"));
        }
        before = Some(place);
        let inner = quoted.strip_prefix('`').and_then(|s| s.strip_suffix('`'));
        for one in inner.ok_or(part)?.split("`, `") {
            cited.push(citation(kind, one).ok_or(one)?);
        }
    }
    Ok(cited)
}

/// Returns what stands between two backquotes.
fn citation<'a>(kind: &'a str, quoted: &'a str) -> Option<Citation<'a>> {
    let (place, names) = quoted.split_once(": ")?;
    // A reading's title has commas of its own.
    let names: Vec<&str> = match kind == "refused" && is_capital(place) {
        true => vec![names],
        false => names.split(", ").collect(),
    };
    let plain = |name: &str| !name.contains([' ', '`']) && !name.is_empty();
    let titled = kind == "refused" && is_capital(place);
    let formed = plain(place) && (titled || names.iter().all(|name| plain(name)));
    formed.then_some(Citation { kind, place, names })
}

/// Returns a file under the repository.
fn file(path: &str) -> Option<String> {
    fs::read_to_string(root().join(path)).ok()
}

/// Returns the file of definitions or proofs that a place names, in this crate if it names none.
fn antt(place: &str, folder: &str, usual: &str) -> String {
    let (owner, name) = place.split_once('/').unwrap_or((usual, place));
    format!("crates/{owner}/{folder}/{name}.antt")
}

/// Returns what a line declares, without the words before it, if it is to be seen from outside.
fn declared(line: &str) -> Option<&str> {
    let line = ["abbrev ", "unfoldable "]
        .iter()
        .find_map(|word| line.strip_prefix(word))
        .unwrap_or(line);
    let line = line.strip_prefix("pub ")?;
    let rest = ["record ", "data "]
        .iter()
        .find_map(|word| line.strip_prefix(word));
    Some(rest.unwrap_or(line))
}

/// Tells whether a file of definitions declares the name.
fn defines(text: &str, name: &str) -> bool {
    let mut lines = text.lines().filter_map(declared);
    lines.any(|line| {
        line.strip_prefix(name)
            .is_some_and(|rest| rest.starts_with(' '))
    })
}

/// Tells whether a file of proofs declares the name. A theorem may stand in a module.
fn states(text: &str, name: &str) -> bool {
    let mut lines = text.lines().filter_map(|line| declared(line.trim_start()));
    lines.any(|line| {
        line.strip_prefix(name)
            .is_some_and(|rest| rest.starts_with(" :"))
    })
}

/// Tells whether a crate's sources declare the type.
fn has_type(owner: &str, name: &str) -> bool {
    let text = source(owner, "lib").unwrap_or_default();
    let mut lines = text.lines();
    lines.any(|line| {
        let rest = line
            .strip_prefix("pub struct ")
            .or(line.strip_prefix("pub enum "));
        let rest = rest.and_then(|rest| rest.strip_prefix(name));
        rest.is_some_and(|rest| rest.starts_with([' ', '(']))
    })
}

fn source(owner: &str, module: &str) -> Option<String> {
    file(&format!("crates/{owner}/src/{module}.rt"))
}

/// Returns what stands in the block of a type's methods, or of a conversion, as `From<Answer>`.
fn block<'a>(text: &'a str, inner: &str) -> Option<&'a str> {
    let heads = [
        format!("\nimpl {inner} {{\n"),
        format!("\nimpl<'a> {inner}<'a> {{\n"),
        format!("\nimpl {inner} for "),
    ];
    let (_, rest) = heads
        .iter()
        .find_map(|head| text.split_once(head.as_str()))?;
    rest.split("\n}\n").next()
}

/// Returns what stands before the body of a function: its parameters and its contract. A conversion has its contract in a
/// line of its own, before the function.
fn contract(place: &str, name: &str) -> Option<String> {
    let (owner, inner) = place.split_once("::").unwrap_or((place, "lib"));
    let module = if is_capital(inner) { "lib" } else { inner };
    let text = source(owner, module).or_else(|| source(owner, "main"))?;
    if inner.starts_with("From<") && name == "from" {
        let within = block(&text, inner)?;
        return within
            .lines()
            .find(|line| line.trim_start().starts_with("ghost from_gives"))
            .map(String::from);
    }
    let (text, indent) = match is_capital(inner) {
        true => (block(&text, inner)?, "    "),
        false => (text.as_str(), ""),
    };
    let mut lines = text.lines().skip_while(|line| {
        let line = line.strip_prefix(indent).unwrap_or_default();
        let line = line.strip_prefix("pub ").unwrap_or(line);
        let line = line.strip_prefix("extern \"C\" ").unwrap_or(line);
        let rest = line
            .strip_prefix("fn ")
            .and_then(|rest| rest.strip_prefix(name));
        !rest.is_some_and(|rest| rest.starts_with(['(', '<']))
    });
    let first = lines.next()?;
    let rest = lines.take_while(|line| line.trim() != "{");
    Some(rest.fold(String::from(first), |all, line| all + "\n" + line))
}

/// Tells whether a text has the name as a word of its own.
fn has_word(text: &str, name: &str) -> bool {
    let within = |c: char| c.is_alphanumeric() || c == '-' || c == '_';
    text.split(|c| !within(c)).any(|word| word == name)
}

/// Tells whether a reading with this title is in the file.
fn has_reading(name: &str, title: &str) -> bool {
    let text = file(&format!("tests/readings/{name}")).unwrap_or_default();
    text.split("\n\n")
        .any(|reading| reading.lines().next() == Some(title))
}

/// Returns the file that an edit changes.
fn edited(owner: &str, name: &str) -> Option<String> {
    let text = file(&format!("crates/{owner}/must-fail/{name}.edit"))?;
    let mut lines = text.lines();
    lines.find_map(|line| line.strip_prefix("file: ").map(String::from))
}

/// Tells whether what is cited belongs to what the rule cites beside it: the contract of a
/// function names one of its definitions, a reading is of one of them, and an edit changes a
/// file of them or a crate of its functions.
fn belongs(one: &Citation, name: &str, cited: &[Citation]) -> bool {
    let definitions = || cited.iter().filter(|other| is_definition(other));
    let mut names = definitions().flat_map(|other| &other.names);
    match one.kind {
        "coded" => contract(one.place, name)
            .is_some_and(|text| names.any(|definition| has_word(&text, definition))),
        "refused" if is_capital(one.place) => {
            let of = name.split_once(": ").map(|(definition, _)| definition);
            names.any(|definition| Some(*definition) == of)
        }
        "refused" => edited(one.place, name).is_some_and(|path| {
            let changed = format!("crates/{}/{path}", one.place);
            let mut coded = cited.iter().filter(|other| other.kind == "coded");
            definitions().any(|other| antt(other.place, "specs", "drive") == changed)
                || path.starts_with("src/")
                    && coded.any(|other| other.place.split("::").next() == Some(one.place))
        }),
        _ => true,
    }
}

/// Tells whether it cites definitions, and not types of the program.
fn is_definition(one: &Citation) -> bool {
    one.kind == "defined" && !one.place.ends_with("/src")
}

/// Tells whether what is cited is there.
fn is_there(kind: &str, place: &str, name: &str) -> bool {
    let all = |paths: [String; 2]| paths.iter().all(|path| root().join(path).is_file());
    match (kind, place) {
        ("defined", _) if place.ends_with("/src") => has_type(place.trim_end_matches("/src"), name),
        ("defined", _) => {
            file(&antt(place, "specs", "drive")).is_some_and(|text| defines(&text, name))
        }
        ("coded", _) => contract(place, name).is_some(),
        ("proved", _) => {
            file(&antt(place, "proofs", "demands")).is_some_and(|text| states(&text, name))
        }
        ("refused", _) if is_capital(place) => has_reading(place, name),
        ("refused", _) => edited(place, name).is_some(),
        ("tested", "scripts") => {
            all(["script", "expected"].map(|end| format!("tests/scripts/{name}.{end}")))
        }
        ("tested", "plans") => all(["plan", "expected"].map(|end| format!("plans/{name}.{end}"))),
        ("tested", _) if place.contains('/') => {
            file(&antt(place, "proofs", "")).is_some_and(|text| states(&text, name))
        }
        _ => false,
    }
}

/// Lists what is wrong with a rule.
fn wrong_in(rule: &Rule) -> Vec<String> {
    let number = &rule.number;
    let [line] = &rule.lines[..] else {
        return vec![format!(
            "{number}: {} lines say where it lives",
            rule.lines.len()
        )];
    };
    let cited = match citations(line) {
        Ok(cited) => cited,
        Err(part) => return vec![format!("{number}: no known form: {part}")],
    };
    let mut wrong = Vec::new();
    if rule.text.contains('`') {
        wrong.push(format!("{number}: a name that is not in its line"));
    }
    for needed in NEEDED {
        if !cited.iter().any(|one| one.kind == needed) {
            wrong.push(format!("{number}: nothing {needed}"));
        }
    }
    if !cited.iter().any(is_definition) {
        wrong.push(format!("{number}: no definition"));
    }
    for one in &cited {
        for name in &one.names {
            let says = format!("{number}: {} {}: {name}", one.kind, one.place);
            if !is_there(one.kind, one.place, name) {
                wrong.push(says);
            } else if !belongs(one, name, &cited) {
                wrong.push(says + ", of another rule");
            }
        }
    }
    wrong
}

/// Lists the files of definitions that no rule cites.
fn uncited(rules: &[Rule]) -> Vec<String> {
    let cited: Vec<PathBuf> = rules
        .iter()
        .flat_map(|rule| &rule.lines)
        .flat_map(|line| citations(line).unwrap_or_default())
        .filter(|one| one.kind == "defined")
        .map(|one| root().join(antt(one.place, "specs", "drive")))
        .collect();
    let mut uncited = Vec::new();
    for owner in DEFINING {
        let folder = root().join(format!("crates/{owner}/specs"));
        for entry in fs::read_dir(&folder).expect("definitions").flatten() {
            let path = entry.path();
            if entry.file_name() != "Lib.antt" && !cited.contains(&path) {
                uncited.push(format!("{owner}: {:?} is not cited", entry.file_name()));
            }
        }
    }
    uncited
}

/// Lists the examples of the table that explains the lines, each with its word.
fn examples(document: &str) -> Vec<(&str, &str)> {
    let mut kind = "";
    let mut examples = Vec::new();
    for line in document
        .lines()
        .take_while(|line| !line.starts_with("## 1. "))
    {
        let cells: Vec<&str> = line.split('|').map(str::trim).collect();
        let ["", word, example, _, ""] = cells[..] else {
            continue;
        };
        if KINDS.contains(&word) {
            kind = word;
        }
        let quoted = example.strip_prefix('`').and_then(|s| s.strip_suffix('`'));
        examples.extend(quoted.map(|quoted| (kind, quoted)));
    }
    examples
}

/// Lists what is wrong with the document.
fn wrong(document: &str) -> Vec<String> {
    let rules = rules(document);
    assert!(rules.len() > 70, "{} rules", rules.len());
    let mut wrong: Vec<String> = rules.iter().flat_map(wrong_in).collect();
    wrong.extend(uncited(&rules));
    wrong
}

#[test]
fn each_rule_says_where_it_lives() {
    assert_eq!(wrong(&spec()), [""; 0]);
}

#[test]
fn the_examples_of_the_lines_are_cited_or_there() {
    let document = spec();
    let examples = examples(&document);
    assert!(examples.len() > 10, "{} examples", examples.len());
    for (kind, quoted) in examples {
        let one = citation(kind, quoted).expect(quoted);
        let there = |name: &&str| is_there(kind, one.place, name);
        assert!(one.names.iter().all(there), "{kind} {quoted}");
    }
}

#[test]
fn what_is_not_there_is_noticed() {
    let document = spec();
    for (right, other, says) in [
        (
            "`geometry/Geometry: is_block`",
            "`geometry/Geometry: is_blok`",
            "is_blok",
        ),
        ("`geometry/src: Block`", "`geometry/src: Blok`", "Blok"),
        ("`geometry: is_block`", "`geometry: is_blok`", "is_blok"),
        (
            "`table::Table: kill_next`",
            "`table::Tabel: kill_next`",
            "Tabel: kill_next",
        ),
        (
            "`reading::retries: after_read`",
            "`reading::retrys: after_read`",
            "retrys",
        ),
        ("`Demand1: demand_1`", "`Demand1: demand_4`", "demand_4"),
        (
            "`geometry: block_9728`",
            "`geometry: block_9729`",
            "block_9729",
        ),
        (
            "Sparing: has_unused: a 33rd spare",
            "Sparing: has_unused: a 34th spare",
            "34th",
        ),
        ("`scripts: bad-list`", "`scripts: bad-lst`", "bad-lst"),
        ("`plans: bad-list`", "`plans: bad-lst`", "bad-lst"),
        (
            "`drive/Verifies: verifies`",
            "`drive/Verifies: verified`",
            "verified",
        ),
        (
            "`runs/Shown: the_table_shown`",
            "`runs/Shown: the_table`",
            "the_table",
        ),
        // Functions, readings and edits that are there, and are another rule's.
        (
            "coded `geometry: home` ",
            "coded `geometry: is_block` ",
            "is_block, of another rule",
        ),
        (
            "Sparing: has_unused: a 33rd spare",
            "Sparing: missed: a spare gets two trials",
            "two trials, of another rule",
        ),
        (
            "`drive: surface_lies, ",
            "`drive: timeout_costs_one, ",
            "timeout_costs_one, of another rule",
        ),
    ] {
        assert!(document.contains(right), "{right}");
        let wrong = wrong(&document.replace(right, other));
        assert!(
            wrong.iter().any(|line| line.contains(says)),
            "{other}: {wrong:?}"
        );
    }
}

#[test]
fn what_has_another_form_is_noticed() {
    let document = spec();
    for (right, other, says) in [
        (
            "coded `geometry: home`",
            "coded geometry: home",
            "1.3: no known form",
        ),
        (
            "coded `geometry: home`",
            "coded `home`",
            "1.3: no known form: home",
        ),
        (
            "coded `geometry: home`",
            "written `geometry: home`",
            "1.3: no known form",
        ),
        (
            "coded `geometry: home`",
            "defined `geometry: home`",
            "1.3: no known form",
        ),
        (
            "tested `drive/Codes: code_1`, ",
            "tested `Codes: code_1`, ",
            "Codes: code_1",
        ),
        (
            "<sub>defined `geometry/Geometry: home_of` · ",
            "<sub>",
            "1.3: nothing defined",
        ),
        ("**1.3 Homes.**", "**1.3 Homes, `home_of`.**", "1.3: a name"),
        (
            "Converting: ConvertsEither",
            "Calls: ConvertsEither",
            "\"Converting.antt\"",
        ),
        (
            "<sub>defined `geometry/Geometry: home_of`",
            "defined `geometry/Geometry: home_of`",
            "1.3: 0 lines",
        ),
    ] {
        assert!(document.contains(right), "{right}");
        let wrong = wrong(&document.replace(right, other));
        assert!(
            wrong.iter().any(|line| line.contains(says)),
            "{other}: {wrong:?}"
        );
    }
}

/// Lists the numbers of rules that a text refers to, its own with them.
fn references(text: &str) -> impl Iterator<Item = &str> {
    let is_number = |part: &str| !part.is_empty() && part.bytes().all(|b| b.is_ascii_digit());
    text.split(|c: char| c.is_whitespace() || "(),;:*".contains(c))
        .map(|word| word.trim_end_matches('.'))
        .filter(move |word| {
            let parts = word.split_once('.');
            parts.is_some_and(|(section, rule)| is_number(section) && is_number(rule))
        })
}

#[test]
fn a_number_in_the_text_is_that_of_a_rule() {
    let document = spec();
    let rules = rules(&document);
    let text = document.split("\n## ").filter(|section| {
        section.starts_with("Words") || section.starts_with(|c: char| c.is_ascii_digit())
    });
    let mut referred = 0;
    for number in text.flat_map(references) {
        assert!(rules.iter().any(|rule| rule.number == number), "{number}");
        referred += 1;
    }
    assert!(referred > rules.len() + 20, "{referred} numbers");
}

#[test]
#[should_panic(expected = "the next rule's number")]
fn a_number_left_out_is_noticed() {
    rules(&spec().replace("**1.3 ", "**1.5 "));
}
