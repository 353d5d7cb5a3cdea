use super::*;
use crate::clock::Time;
use crate::faults::NONE;
use crate::run::Wrong;

const BANNER: &str = include_str!("../../../../plans/banner.plan");

fn share(some: u32, of: u32) -> Share {
    Share { some, of }
}

fn ask(plan: &str, rate: Share, dying: Share) -> Ask {
    Ask {
        program: String::from("./a workbench"),
        name: String::from("a plan"),
        plan: plan.as_bytes().to_vec(),
        file: None,
        folder: PathBuf::new(),
        rate,
        dying,
    }
}

fn counted(ask: &Ask, seeds: u32, jobs: usize) -> Odds<'_> {
    let odds = ask.odds(seeds, jobs, Progress::silent());
    odds.expect("a plan that is whole without faults")
}

/// Why a plan that orders its own faults is not whole.
fn why(plan: &str) -> Option<Why> {
    let ended = ask(plan, share(0, 1), NONE).run(None).expect("a platter");
    assert_eq!(ended.broken, None);
    ended.wrong.map(|wrong| wrong.why)
}

#[test]
fn the_same_seeds_give_the_same_odds_on_any_number_of_threads() {
    let ask = ask(BANNER, share(1, 20), share(1, 2));
    let one = counted(&ask, 10, 1);
    for jobs in [2, 20] {
        let other = counted(&ask, 10, jobs);
        assert_eq!(other.runs, one.runs);
        assert_eq!(text(&other), text(&one));
        assert_eq!(json(&other), json(&one));
    }
    let seeds: Vec<u32> = one.runs.iter().map(|run| run.seed).collect();
    assert_eq!(seeds, (1..=10).collect::<Vec<u32>>());
    assert!(one.good());
    // Fewer seeds are the first ones.
    assert_eq!(counted(&ask, 5, 2).runs, one.runs[..5]);
}

#[test]
fn without_faults_all_runs_are_alike() {
    let ask = ask(BANNER, share(0, 50), share(1, 2));
    let odds = counted(&ask, 3, 2);
    let figures = Figures::of(&odds);
    assert_eq!((figures.runs, figures.count(Ending::Whole)), (3, 3));
    let none = Range {
        least: 0,
        sum: 0,
        most: 0,
    };
    assert_eq!([figures.faults, figures.deaths, figures.spares], [none; 3]);
    assert_eq!(
        (figures.time.least, figures.time.most),
        (odds.without.time, odds.without.time)
    );
    assert_eq!(figures.met(), [Ending::Whole, Ending::Broken]);
}

#[test]
fn at_every_access_a_fault() {
    let ask = ask(BANNER, share(1, 1), share(1, 1));
    let odds = counted(&ask, 4, 2);
    let endings = odds.runs.iter().map(|run| run.ending);
    assert!(endings.eq([Ending::Failed(Why::NoTable); 4]));
}

#[test]
fn deaths_use_spares_and_more_than_noise_does() {
    let mean = |dying| {
        let ask = ask(BANNER, share(1, 10), dying);
        let figures = Figures::of(&counted(&ask, 12, 2));
        (figures.deaths.sum, figures.spares.sum)
    };
    let ((none, few), (deaths, many)) = (mean(NONE), mean(share(1, 1)));
    assert_eq!(none, 0);
    assert!(deaths > 12 && many > 2 * few, "{deaths} {many} {few}");
}

#[test]
fn a_plan_keeps_its_own_faults_and_power_cuts() {
    let plan = "fault sector 3 writes all timeout\nstart\nwrite 3 \"one\"\nfault clear\n\
                power fails at access 2 old\nwrite 4..6 \"one\"\nexpect cut\nstart\n\
                write 4..6 \"two\"\ncompare 4..6 with \"two\"\n";
    let quiet = ask(plan, share(0, 1), NONE);
    let odds = counted(&quiet, 2, 1);
    assert!(odds
        .runs
        .iter()
        .all(|run| run.ending == Ending::Whole && run.spares == 1));
    assert_eq!(odds.without.tally.cuts, 1);
    // The line "fault clear" leaves the random faults beside the plan as they are.
    let ask = ask("fault clear\nstart\nread 0..99\n", share(1, 2), NONE);
    assert!(counted(&ask, 3, 1).runs.iter().all(|run| run.faults > 20));
}

#[test]
fn no_file_is_written() {
    let folder = crate::files::test_folder("odds-file");
    let mut ask = ask("start\nread 0..3 to back.dat\n", share(0, 1), NONE);
    ask.folder = folder.clone();
    assert_eq!(counted(&ask, 2, 2).runs[0].ending, Ending::Whole);
    assert!(!folder.join("back.dat").exists());
    std::fs::remove_dir_all(folder).expect("removed");
}

#[test]
fn a_plan_that_is_not_whole_without_random_faults_is_refused() {
    let fault = |plan: &str| {
        let ask = ask(plan, share(1, 50), NONE);
        ask.odds(9, 2, Progress::silent()).expect_err("a fault")
    };
    assert_eq!(
        fault("start\nread 17\nrad 17\n"),
        "a plan:3: \"rad\" begins no line of a plan; did you mean \"read\"?"
    );
    assert!(fault("read 17\n").starts_with("a plan:1: the drive is not started yet"));
    let unread = "fault sector 17 reads all crc\nstart\nread 16\nread 17\n";
    assert_eq!(
        fault(unread),
        "a plan:4: read 17 is not good without random faults (unreadable block), so that no \
         run of the plan would be whole"
    );
    // A line that cannot be done is told rather than what was not good before it.
    assert!(fault(&format!("{unread}rad\n")).starts_with("a plan:5: \"rad\" begins"));
    assert_eq!(
        fault("start\nread 17\nexpect failed\n"),
        "a plan:3: the plan is not good without random faults (expectation not met), so that \
         no run of the plan would be whole"
    );
}

#[test]
fn what_went_wrong_first() {
    let cases = [
        ("start\nread 17\n", None),
        ("fault sector 17 reads all crc\nstart\nread 17\n", Some(Why::Unreadable)),
        (
            "fault sector 17 reads all crc\nfault sector 4960 writes all timeout\nstart\nread 17\n",
            Some(Why::Unreadable),
        ),
        ("fault sector 17 reads all no-settle\nstart\nread 17\n", Some(Why::Latch)),
        (
            "fault sector 17 writes next 1 timeout\nfault sector 4960 writes all no-settle\nstart\n\
             write 17 \"one\"\n",
            Some(Why::Latch),
        ),
        (
            "fault sector 17 writes next 1 timeout\nfault sector 4960 writes all timeout\nstart\n\
             write 17 \"one\"\n",
            Some(Why::NotStored),
        ),
        (
            "fault sector 17 writes all timeout\nfault sector 4928..4959 writes all timeout\nstart\n\
             write 17 \"one\"\n",
            Some(Why::NoSpare),
        ),
        ("fault sector 4960 reads all crc\nstart\nread 17\n", Some(Why::NoTable)),
        ("start\nread 17\nexpect accesses 2\n", Some(Why::Expectation)),
        ("start\ncompare 17 with \"one\"\n", Some(Why::Expectation)),
        // A failed command counts more than an expectation before it.
        (
            "fault sector 17 reads all crc\nstart\nread 16\nexpect failed\nread 17\n",
            Some(Why::Unreadable),
        ),
    ];
    for (plan, wanted) in cases {
        assert_eq!(why(plan), wanted, "{plan}");
    }
}

#[test]
fn what_a_power_cut_lost() {
    let cut = |rest: &str| why(&format!("start\nwrite 3..4 \"one\"\n{rest}"));
    let spoiled = "power fails at access 1 unreadable\nwrite 3 \"two\"\nstart\n";
    assert_eq!(cut(spoiled), None);
    assert_eq!(cut(&format!("{spoiled}read 3\n")), Some(Why::PowerCut));
    let other = format!("{spoiled}fault sector 4 reads all crc\nread 4\n");
    assert_eq!(cut(&other), Some(Why::Unreadable));
    let off = "power fails at access 1\nwrite 3 \"two\"\nread 3\n";
    assert_eq!(cut(off), Some(Why::PowerCut));
    let old = "power fails at access 1 old\nwrite 3 \"two\"\nstart\ncompare 3 with \"two\"\n";
    assert_eq!(cut(old), Some(Why::PowerCut));
    let table = "fault sector 3 writes all timeout\npower fails during the store unreadable\n\
                 write 3 \"two\"\nstart\nread 4\n";
    assert_eq!(cut(table), Some(Why::PowerCut));
}

#[test]
fn the_first_command_is_named_with_its_line() {
    let plan = "fault sector 5..6 reads all crc\nstart\nread 0..9\nread 5\n";
    let ended = ask(plan, share(0, 1), NONE).run(None).expect("a platter");
    let first = Wrong {
        line: 3,
        command: String::from("read 5"),
        why: Why::Unreadable,
    };
    assert_eq!(ended.wrong, Some(first));
}

/// Runs that ended so, one after another, in each of which so many sectors died.
fn made(runs: &[(Ending, u64)]) -> Vec<Outcome> {
    let run = |(seed, &(ending, deaths))| Outcome {
        seed,
        ending,
        faults: deaths + 1,
        deaths,
        spares: deaths / 2,
        time: Time::ZERO,
    };
    (1..).zip(runs).map(run).collect()
}

#[test]
fn a_broken_history_is_named_with_the_command_that_repeats_it() {
    let ask = ask("start\nread 17\n", share(1, 50), share(1, 4));
    let mut odds = counted(&ask, 1, 1);
    assert!(odds.good());
    assert!(text(&odds).contains("\nno history is broken: "));
    odds.runs = made(&[(Ending::Whole, 0), (Ending::Broken, 3), (Ending::Broken, 1)]);
    assert!(!odds.good());
    let text = text(&odds);
    let last = "2 histories are BROKEN\nthe first again: './a workbench' odds 'a plan' --seed 2 \
                --rate 1/50 --dying 1/4\n";
    assert!(text.ends_with(last), "{text}");
    assert!(json(&odds).contains("\"broken_seeds\": [\n    2,\n    3\n  ]"));
}

#[test]
fn lines_of_the_odds() {
    let ask = ask("start\nread 17\n", share(1, 50), share(1, 4));
    let mut odds = counted(&ask, 1, 1);
    let failed = Ending::Failed(Why::NoSpare);
    odds.runs = made(&[(Ending::Whole, 0), (failed, 33), (Ending::Whole, 4)]);
    let text = text(&odds);
    for line in [
        "The odds of a plan: 3 runs, with seeds 1..3",
        "  a random fault at 1 of 50 accesses; of the sectors that meet one 1 of 4 die",
        "  without them: 1 command, 2 accesses, about 0.306 s",
        "  whole                      2   66.7 %",
        "  no spare                   1   33.3 %   first with seed 2",
        "  history broken             0    0.0 %",
        "  random faults              1    13.33       34",
        "  sectors that died          0    12.33       33",
        "  spares used                0     6.00       16",
        "  sectors died    runs  whole  no spare  history broken",
        "            33       1      0         1               0",
        "one run again: './a workbench' odds 'a plan' --seed S --rate 1/50 --dying 1/4",
    ] {
        assert!(text.lines().any(|shown| shown == line), "{line}\n{text}");
    }
    assert!(!text.contains("latch"));
}

/// Takes a JSON value from the front of a text.
fn value(text: &str) -> &str {
    let text = text.trim_start();
    match text.as_bytes()[0] {
        b'{' => items(&text[1..], '}', |item| {
            let (name, rest) = string(item);
            assert!(!name.is_empty());
            value(rest.trim_start().strip_prefix(':').expect("a colon"))
        }),
        b'[' => items(&text[1..], ']', value),
        b'"' => string(text).1,
        _ => {
            let end = text.find([',', '}', ']', '\n']).expect("an end");
            text[..end].parse::<f64>().expect("a number");
            &text[end..]
        }
    }
}

/// Takes the items of an object or a list.
fn items(text: &str, end: char, item: impl Fn(&str) -> &str) -> &str {
    let mut rest = text.trim_start();
    if let Some(rest) = rest.strip_prefix(end) {
        return rest;
    }
    loop {
        rest = item(rest.trim_start()).trim_start();
        match rest.strip_prefix(',') {
            Some(more) => rest = more,
            None => return rest.strip_prefix(end).expect("an end"),
        }
    }
}

/// Takes a text in quotation marks.
fn string(text: &str) -> (&str, &str) {
    let text = text.strip_prefix('"').expect("a quotation mark");
    let mut before = ' ';
    let end = text.find(|letter| {
        let ends = letter == '"' && before != '\\';
        before = if before == '\\' { ' ' } else { letter };
        ends
    });
    let (string, rest) = text.split_at(end.expect("a second one"));
    (string, &rest[1..])
}

#[test]
fn json_is_well_formed() {
    let mut ask = ask(BANNER, share(1, 20), share(1, 2));
    ask.name = String::from("a \"plan\" \\ of\tmine");
    let json = json(&counted(&ask, 8, 2));
    assert_eq!(value(&json), "\n", "{json}");
    assert!(json.starts_with("{\n  \"plan\": \"a \\\"plan\\\" \\\\ of\\u0009mine\",\n"));
    for (name, count) in [("\"seed\": ", 8), ("\"broken_seeds\": []", 1)] {
        assert_eq!(json.matches(name).count(), count, "{name}");
    }
}

#[test]
fn shares_and_means() {
    use super::figures::{hundredths, percent};
    assert_eq!(percent(1, 3), "33.3 %");
    assert_eq!(percent(2, 3), "66.7 %");
    assert_eq!(percent(5, 5), "100.0 %");
    assert_eq!(hundredths(1, 3), 33);
    assert_eq!(hundredths(0, 0), 0);
}

#[test]
fn every_ending_has_its_place() {
    for (place, ending) in Ending::all().into_iter().enumerate() {
        assert_eq!(ending.place(), place);
    }
}

#[test]
fn names_for_a_shell() {
    assert_eq!(quoted("plans/week-2.plan"), "plans/week-2.plan");
    assert_eq!(quoted("my plan"), "'my plan'");
    assert_eq!(quoted("it's"), r"'it'\''s'");
}
