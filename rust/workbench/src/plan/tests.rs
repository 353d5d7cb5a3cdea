mod wrong;

use super::*;
use crate::faults::{Effect, Fault, Kind, Share, NONE};
use reference::geometry::Sector;
use std::collections::VecDeque;
use wrong::{FORMS, VALUES};

fn fault_of(line: &str) -> (Vec<u32>, Kind, Fault) {
    match parse(line) {
        Ok(Line::Fault(Order::Planned {
            sectors,
            kind,
            fault,
        })) => (
            sectors.into_iter().map(Sector::number).collect(),
            kind,
            fault,
        ),
        other => panic!("{line}: {other:?}"),
    }
}

#[test]
fn lines_that_do_nothing() {
    for line in ["", "  ", "# start", "  # start", "#start", "\r\n"] {
        assert_eq!(parse(line), Ok(Line::Nothing), "{line:?}");
    }
    assert_eq!(parse("say"), Ok(Line::Say(String::new())));
    let said = Line::Say(String::from("it's  \"17\" # so"));
    assert_eq!(parse("say it's  \"17\" # so\n"), Ok(said));
}

#[test]
fn reads() {
    let read = |first, last, retries, threshold, to: Option<&str>| Line::Read {
        blocks: Blocks { first, last },
        retry: Retry { retries, threshold },
        to: to.map(String::from),
    };
    assert_eq!(parse("read 17"), Ok(read(17, 17, 10, 3, None)));
    assert_eq!(parse("read 17 0"), Ok(read(17, 17, 0, 3, None)));
    assert_eq!(
        parse("\tread  17 255 0 \r\n"),
        Ok(read(17, 17, 255, 0, None))
    );
    let all = read(0, 9727, 2, 1, Some("a.dat"));
    for name in ["a.dat", "\"a.dat\"", "\t\"a.dat\" \r\n"] {
        let line = format!("read 0..9727 2 1 to {name}");
        assert_eq!(parse(&line), Ok(all.clone()), "{line}");
    }
    let blanks = read(5, 5, 10, 3, Some(" my  layout.dat"));
    assert_eq!(parse("read 5 to \" my  layout.dat\""), Ok(blanks));
    let marks = read(5, 5, 10, 3, Some("5\"floppy\""));
    assert_eq!(parse("read 5 to 5\"floppy\""), Ok(marks));
    let table = read(0xFF_FFFF, 0xFF_FFFF, 10, 3, None);
    assert_eq!(parse("read $FFFFFF"), Ok(table.clone()));
    assert_eq!(parse("read 0xffffff"), Ok(table));
    assert_eq!(parse(" health\t\r\n"), Ok(Line::Health));
    assert_eq!(parse(" convert\r\n"), Ok(Line::Convert));
    let health = read(0xFF_FFFD, 0xFF_FFFD, 10, 3, None);
    assert_eq!(parse("read $FFFFFD"), Ok(health));
    assert_eq!(parse("dump $FFFFFD"), Ok(Line::Dump(0xFF_FFFD)));
}

#[test]
fn data() {
    let data = |line: &str| match parse(line) {
        Ok(Line::Write { data, .. } | Line::Compare { data, .. }) => data,
        other => panic!("{line}: {other:?}"),
    };
    assert_eq!(data("write 1 4d 00*3"), Data::Bytes(vec![0x4D, 0, 0, 0]));
    assert_eq!(data("write 1 nothing"), Data::Bytes(vec![]));
    assert_eq!(data("write-verify 0..39 nothing"), Data::Bytes(vec![]));
    assert_eq!(data("write 1 \"a b\""), Data::Text(String::from("a b")));
    let path = String::from("front.dat");
    let file = Data::File { path, offset: 532 };
    assert_eq!(data("write-verify 0..39 file front.dat at 532"), file);
    assert_eq!(data("compare 0..39 2 1 with file front.dat at $214"), file);
    assert_eq!(data("write 0..39 file \"front.dat\"  at 532"), file);
    let path = String::from("shop front at 5.dat");
    let (offset, name) = (0, "\"shop front at 5.dat\"");
    let file = Data::File { path, offset };
    assert_eq!(data(&format!("compare 1 with file {name}")), file);
    assert_eq!(data(&format!("write 1 file {name} at 0")), file);
    assert_eq!(data("compare 7 with 00*532"), Data::Bytes(vec![0; 532]));
}

#[test]
fn faults() {
    use Effect::{Crc, Good, NoSettle, Timeout, Unreadable};
    assert_eq!(
        fault_of("fault sector 17 reads next 2 crc"),
        (vec![17], Kind::Reads, Fault::next(2, Crc))
    );
    assert_eq!(
        fault_of("fault sector 4959..4961 writes all unreadable"),
        (vec![4959, 4960, 4961], Kind::Writes, Fault::All(Unreadable))
    );
    assert_eq!(
        fault_of("fault sector 0 writes every 3 no-settle"),
        (vec![0], Kind::Writes, Fault::spread(1, 3, NoSettle))
    );
    let turns = VecDeque::from([(1, Crc), (3, Good), (1, Timeout)]);
    assert_eq!(
        fault_of("fault sector 9791 reads in-turn crc good*3 timeout"),
        (vec![9791], Kind::Reads, Fault::InTurn(turns))
    );
    assert_eq!(parse("fault clear"), Ok(Line::Fault(Order::ClearAll)));
    let sector = Sector::new(17).expect("a sector");
    let clear = Order::Clear(vec![sector]);
    assert_eq!(parse("fault sector 17 clear"), Ok(Line::Fault(clear)));
}

#[test]
fn random_faults() {
    let random = |dying| Order::Random {
        seed: 7,
        rate: Share { some: 1, of: 50 },
        dying,
    };
    let quarter = Share { some: 1, of: 4 };
    for (words, dying) in [("", NONE), (" dying 1/4", quarter)] {
        let line = format!("fault random seed 7 rate 1/50{words}");
        assert_eq!(parse(&line), Ok(Line::Fault(random(dying))));
    }
}

#[test]
fn faults_of_rereads() {
    use Effect::{Crc, Timeout, Unreadable};
    assert_eq!(
        fault_of("fault sector 17 rereads fail 31 of 100"),
        (vec![17], Kind::Rereads, Fault::spread(31, 100, Crc))
    );
    assert_eq!(
        fault_of("fault sector 4928..4929 rereads fail 100 of 100 timeout"),
        (
            vec![4928, 4929],
            Kind::Rereads,
            Fault::spread(100, 100, Timeout)
        )
    );
    assert_eq!(
        fault_of("fault sector 17 rereads next 31 crc"),
        (vec![17], Kind::Rereads, Fault::next(31, Crc))
    );
    assert_eq!(
        fault_of("fault sector 17 reads fail 0 of 7"),
        (vec![17], Kind::Reads, Fault::spread(0, 7, Crc))
    );
    assert_eq!(
        fault_of("fault sector 17 writes fail 1 of 2 unreadable"),
        (vec![17], Kind::Writes, Fault::spread(1, 2, Unreadable))
    );
}

#[test]
fn power() {
    use crate::power::{Fate, Order, When};
    let order = |when, fate| Ok(Line::Power(Order { when, fate }));
    for (words, fate) in [
        ("", Fate::Old),
        (" old", Fate::Old),
        (" new", Fate::New),
        (" unreadable\r\n", Fate::Unreadable),
    ] {
        let line = format!("power fails at access 105{words}");
        assert_eq!(parse(&line), order(When::Access(105), fate));
        let line = format!("power fails during the store{words}");
        assert_eq!(parse(&line), order(When::Store, fate));
    }
    assert_eq!(
        parse("power fails at access $10"),
        order(When::Access(16), Fate::Old)
    );
    assert_eq!(parse("cuts from here"), Ok(Line::CutsFrom));
    assert_eq!(parse("cuts to here"), Ok(Line::CutsTo));
}

#[test]
fn expectations_and_traffic() {
    assert_eq!(
        parse("expect good spared errors 4 status 0c 04 00 04"),
        Ok(Line::Expect(vec![
            Expectation::Good,
            Expectation::Spared,
            Expectation::Errors(4),
            Expectation::Status([0x0C, 4, 0, 4]),
        ]))
    );
    assert_eq!(
        parse("expect cut stored not-stored"),
        Ok(Line::Expect(vec![
            Expectation::Cut,
            Expectation::Stored,
            Expectation::NotStored,
        ]))
    );
    let traffic = Traffic {
        commands: 1000,
        seed: 3,
        blocks: Blocks { first: 0, last: 9 },
    };
    assert_eq!(
        parse("traffic 1000 blocks 0..9 seed 3"),
        Ok(Line::Traffic(traffic))
    );
}

/// Lines with a slip of the pen in them, and the word that is offered.
const SLIPS: [(&str, &str); 24] = [
    ("raed 17", "read"),
    ("Start", "start"),
    ("wirte-verify 17 00", "write-verify"),
    ("help cut", "cuts"),
    ("expect god", "good"),
    ("expect good errrors 4", "errors"),
    ("expect in_place", "in-place"),
    ("fault sectr 17", "sector"),
    ("fault cler", "clear"),
    ("fault sector 17 read next 1 crc", "reads"),
    ("fault sector 17 claer", "clear"),
    ("fault sector 17 reads nxt 1 crc", "next"),
    ("fault sector 17 reads inturn crc", "in-turn"),
    ("fault sector 17 reads all cr", "crc"),
    ("fault sector 17 writes all unredable", "unreadable"),
    ("fault sector 17 reads in-turn good*2 tiemout", "timeout"),
    ("power fails druing the store", "during"),
    ("power fails at access 3 od", "old"),
    ("cuts form here", "from"),
    ("traffic 5 sead 3", "seed"),
    ("compare 17 wiht 00", "with"),
    ("read 17 1 ot a.dat", "to"),
    ("write 17 fil a.dat", "file"),
    ("write 17 nothng", "nothing"),
];

#[test]
fn near_words_are_offered() {
    for (line, word) in SLIPS {
        let message = parse(line).expect_err(line);
        let offer = format!("; did you mean \"{word}\"?");
        assert!(message.contains(&offer), "{line}: {message}");
    }
    let message = parse("xyzzy 17").expect_err("no line");
    assert!(
        message.ends_with("; the line \"help\" shows all"),
        "{message}"
    );
    assert!(parse("expect god").is_err_and(|message| message.ends_with(EXPECTED)));
}

#[test]
fn messages_quote_little_and_no_control_characters() {
    let long = "\u{1b}[31m\0x".repeat(10_000);
    for line in [
        "",
        "read ",
        "read 1..",
        "write 1 ",
        "write 1 \"",
        "lower ",
        "start ",
        "expect ",
        "fault ",
        "fault sector 1 ",
        "fault sector 1 reads ",
        "fault sector 1 reads all ",
        "help ",
        "fault random ",
        "fault random seed 1 rate ",
        "fault random seed 1 rate 1/2 dying ",
        "power ",
        "power fails ",
        "cuts ",
        "power fails at access 3 ",
        "traffic 1 ",
        "compare 1 ",
    ] {
        let message = parse(&format!("{line}{long}")).expect_err(line);
        assert!(message.chars().count() < 220, "{line}: {message}");
        assert!(!message.contains(char::is_control), "{line}: {message}");
    }
}

#[test]
fn the_help_knows_every_line_and_every_word() {
    let words = help::words();
    assert_eq!((words.len(), words[0], words[1]), (19, "say", "help"));
    for word in words {
        let message = parse(word).err().unwrap_or_default();
        assert!(!message.contains("begins no line"), "{word}");
        let Ok(Line::Help(text)) = parse(&format!("help {word}")) else {
            panic!("{word}");
        };
        assert!(text.starts_with(&format!("  {word}")), "{text}");
    }
    let text = help::all().split_whitespace().collect::<Vec<_>>().join(" ");
    assert!(text.contains(&format!("WORDS are {EXPECTED}.")));
}

#[test]
fn help_of_a_line_tells_of_its_parts() {
    let of = |word: &str| help::of(word).expect("lines");
    let in_one_line = |text: String| text.split_whitespace().collect::<Vec<_>>().join(" ");
    let text = in_one_line(of("compare"));
    for part in [
        "BLOCKS is a number",
        "DATA is bytes",
        "; a NAME with blanks is put in quotation marks.",
        "R is 10 and T is 3",
    ] {
        assert!(text.contains(part), "{text}");
    }
    assert!(
        !text.contains("KIND is") && !text.contains("WORDS are"),
        "{text}"
    );
    let text = in_one_line(of("read"));
    assert!(text.contains(". FILE with blanks is put in quotation marks."));
    assert_eq!(of("fault").matches("\n  fault ").count(), 7);
    assert!(of("power").contains("LEFT is what a write under way leaves"));
    assert!(of("cuts").contains("The lines from \"cuts from here\""));
    assert_eq!(
        of("start").trim(),
        "start                               start"
    );
    assert!(help::all().starts_with("Lines of a plan") && help::all().contains("\nBLOCKS is"));
    assert!(!help::all().contains("Exit status"));
}

#[test]
fn each_example_of_the_help_is_that_of_its_own_line() {
    for example in help_examples() {
        let shown = help::example(example);
        assert!(
            example.starts_with('#') || shown == Some(example),
            "{example}"
        );
    }
    assert_eq!(help::example("xyzzy 17"), None);
}

#[test]
fn no_line_breaks_the_parser() {
    let mut rng = reference::rng::Rng::new(9);
    let lines = FORMS.iter().flat_map(|(_, lines)| *lines);
    let lines = lines.chain(VALUES).map(|(line, _)| *line);
    let words: Vec<&str> = lines.flat_map(|line| line.split(' ')).collect();
    let mut lines = 0;
    for _ in 0..40_000 {
        let count = 1 + rng.place(7);
        let line: Vec<&str> = (0..count).map(|_| rng.pick(&words)).collect();
        lines += usize::from(parse(&line.join(" ")).is_ok());
    }
    assert!(lines > 100, "{lines}");
}

/// The examples of the help text: the last column of its lines.
fn help_examples() -> Vec<&'static str> {
    let help = usage::HELP;
    let (_, lines) = help.split_once("Lines of a plan").expect("the lines");
    let (lines, _) = lines.split_once("\nBLOCKS is").expect("their end");
    let column = |line: &'static str| line.trim().rsplit_once("  ").map(|(_, last)| last);
    lines.lines().filter_map(column).collect()
}

/// The examples of the guide: the second cell of its tables' rows.
fn guide_examples() -> Vec<&'static str> {
    let guide = include_str!("../../../../docs/WORKBENCH.md");
    let cell = |line: &'static str| {
        line.split(" | ")
            .nth(1)?
            .strip_prefix('`')?
            .strip_suffix('`')
    };
    guide.lines().filter_map(cell).collect()
}

#[test]
fn the_examples_of_help_and_guide_are_lines() {
    let (help, guide) = (help_examples(), guide_examples());
    assert_eq!((help.len(), guide.len()), (29, 29));
    for line in help.into_iter().chain(guide) {
        assert!(parse(line).is_ok(), "{line}: {:?}", parse(line));
    }
}
