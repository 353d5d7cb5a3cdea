//! Pages of runs, as text.

use std::fmt::Write;

use super::html::check::{values, well_formed};
use super::*;

const WEEK: &str = include_str!("../../../../plans/week.plan");
const LONGEST: &str = include_str!("../../../../plans/longest.plan");

/// Makes the page of a plan, and looks it over.
fn made(plan: &str) -> Page {
    let page = page("my.plan", Settings::default(), plan.as_bytes()).expect("a page");
    well_formed(&page.html);
    needs_nothing_else(&page.html);
    leads_somewhere(&page.html);
    page
}

/// The page refers to nothing outside itself.
fn needs_nothing_else(page: &str) {
    for word in ["http:", "https:", "//", "url(", "@import", "src=", "xlink"] {
        let found = page
            .find(word)
            .map(|place| page[place..].split('\n').next());
        // A comment of the script.
        let comment = |line: Option<&str>| line.is_some_and(|line| line.starts_with("// "));
        assert!(found.is_none_or(comment), "{word}: {found:?}");
    }
    assert_eq!(page.matches("<script").count(), 2);
    assert!(values(page, "href").iter().all(|to| to.starts_with('#')));
}

/// Names are given once, and every link leads to one. A sector's is found by the script too.
fn leads_somewhere(page: &str) {
    let mut names = values(page, "id");
    let all = names.len();
    names.sort_unstable();
    names.dedup();
    assert_eq!(names.len(), all, "a name is given twice");
    for to in values(page, "href") {
        let name = &to[1..];
        let sector = name.strip_prefix("sector-");
        let sector = sector.and_then(|number| number.parse::<u32>().ok());
        let known = names.binary_search(&name).is_ok();
        assert!(known || sector.is_some_and(|number| number < 9792), "{to}");
    }
}

#[test]
fn the_week() {
    let page = made(WEEK);
    assert!(page.good);
    assert_eq!(
        page.last_line,
        "162 commands, 419 accesses, 1 move, history: allowed"
    );
    let html = &page.html;
    assert!(html.contains("data-verdict=\"allowed\""));
    for words in [
        "<strong> 11 of 11 expectations met</strong>",
        "<h3>Wednesday</h3>",
        "<h3>Wednesday, about 3.9 s</h3>",
        "<h3>Thursday</h3>\n<div class=\"row\"",
        "<h3>Saturday, about 0.517 s</h3>",
        "<li class=\"sub\">Wednesday, 3.9 s: compare 17</li>",
        "<p>write 1..39: 39 blocks, each 1 write, good</p>",
        "<li>trial of sector <a href=\"#sector-17\">17</a>: 100 rereads, 31 failed, not passed</li>",
        "<p>expect good in-place errors 1 accesses 3: so it is</p>",
        "<span class=\"what\">write-verify 18..39</span>",
        "<span class=\"took\">0.853 s in all</span>",
        "<p>39 commands, each 1 write, good, about 0.853 s in all</p>",
        "<span class=\"took\">0.151 s</span>",
        " The seconds are estimates for the drive of document 000: docs/WORKBENCH.md, Time.</p>",
        "<td>12</td><td>write of a trial</td><td><a href=\"#sector-17\">17</a></td><td>done</td>",
        "<td>13..112</td><td>rereads of a trial</td><td><a href=\"#sector-17\">17</a></td>\
         <td class=\"wrong\">69 good, 31 CRC errors</td>",
        "<p class=\"status\">status 0c 04 00 04: CRC error met, timeout met, spared",
        "<strong>block 17</strong> <small>sector 4928</small>",
        "It is the home of block 17, which lives in spare 0 (sector <a href=\"#sector-4928\">",
        "block 17 moved from here to spare 0",
        "The table that the drive knows: run number 1, 1 of 32 spares used, no bad block.",
        "say Saturday: it is cut.</li>",
    ] {
        assert!(html.contains(words), "{words}");
    }
    assert!(html.len() < 80_000, "{}", html.len());
}

/// Finds the word for how a line of the story ended.
fn badge(html: &str, number: usize) -> &str {
    let line = format!("id=\"line-{number}\"");
    let rest = &html[html.find(&line).expect("the line")..];
    let (_, rest) = rest.split_once("class=\"badge\">").expect("a badge");
    rest.split_once('<').expect("its end").0
}

#[test]
fn other_bytes_are_no_good_line() {
    let plan = "start\nwrite 17 \"a\"\ncompare 17 with \"b\"\ncompare 17 with \"a\"\n\
                fault sector 17 reads next 2 crc\nfault sector 17 rereads fail 31 of 100\n\
                compare 17 1 1 with \"b\"\n";
    let html = made(plan).html;
    assert_eq!(badge(&html, 3), "✗ other bytes");
    assert_eq!(badge(&html, 4), "✓ good");
    assert_eq!(badge(&html, 7), "→ moved, ✗ other bytes");
}

#[test]
fn a_card_of_other_bytes_is_a_failure_of_its_own() {
    let plan = "start\nwrite 17..19 \"a\"\nwrite 18 \"b\"\ncompare 17..19 with \"a\"\n";
    let html = made(plan).html;
    let (_, line) = html.split_once(r#"id="time-4""#).expect("the line's cards");
    let cards: Vec<&str> = line.split("<details ").skip(1).take(3).collect();
    let names = ["read 17", "read 18", "read 19"];
    for (card, name) in cards.iter().zip(names) {
        assert!(card.contains(&format!(">{name}</span>")), "{name}: {card}");
    }
    assert!(cards[0].starts_with(r#"class="card good""#) && cards[0].contains("✓ good"));
    assert!(cards[1].starts_with(r#"class="card bad""#) && cards[1].contains("✗ other bytes"));
    assert!(
        cards[1].contains("<p>1 read, good, other bytes, about "),
        "{}",
        cards[1]
    );
    assert!(cards[2].starts_with(r#"class="card good""#));
}

#[test]
fn a_move_whose_command_failed_is_told() {
    let plan = "start\nwrite 5 \"after\"\nfault sector 5 writes next 1 timeout\n\
                fault sector 4960 writes next 1 timeout\nwrite 5 \"x\"\n\
                fault sector 6 writes next 1 timeout\nwrite 6 \"x\"\n";
    let html = made(plan).html;
    assert_eq!(badge(&html, 5), "→ moved, ✗ failed");
    assert_eq!(badge(&html, 7), "→ moved");
    for (class, words) in [("bad", "→ moved, ✗ failed"), ("moved", "→ moved")] {
        let card = format!("<details class=\"card {class}\">");
        assert_eq!(html.matches(&card).count(), 1, "{class}");
        let end = format!("<span class=\"end\">{words}</span>");
        assert_eq!(html.matches(&end).count(), 1, "{words}");
    }
}

#[test]
fn a_broken_expectation_and_a_failed_command() {
    let plan = "start\nsay Now: it fails\nread 9728\nexpect good\nexpect failed\n";
    let page = made(plan);
    assert!(!page.good);
    let html = &page.html;
    assert!(html.contains("data-verdict=\"allowed\""));
    assert!(html.contains("<strong> 1 of 2 expectations met</strong>"));
    let named = "<a href=\"#line-4\">line 4</a>: NOT as line 4 expects: good</li>";
    assert!(html.contains(named));
    assert!(html.contains("<span class=\"badge\">✗ failed</span>"));
    assert!(html.contains("<h3>The beginning</h3>"));
    assert!(html.contains("None: every access went well, and no block moved."));
}

#[test]
fn a_broken_history_is_told_with_its_reason() {
    let mut told =
        Told::run("p", Settings::default(), "start\nread 5\n".as_bytes()).expect("a run");
    let words = "broken, after start 1: a good read of block 5 gave other bytes";
    (told.allowed, told.verdict) = (false, words.to_string());
    let html = page::html(&told);
    well_formed(&html);
    assert!(html.contains("<p class=\"banner bad\" data-verdict=\"broken\">"));
    assert!(html.contains(&format!("<strong> History: {words}</strong>")));
    assert!(html.contains("What it would have had to keep"));
}

#[test]
fn text_of_a_plan_is_escaped() {
    let evil = "<script>alert(1)</script><img src=x onerror=alert(1)> \"' &amp; </style>";
    let plan = format!(
        "# {evil}\nsay {evil}: {evil}\nsay {evil}\nstart\nwrite 17 \"{}\"\ncompare 17 with \"{0}\"\n",
        evil.replace('"', "")
    );
    let page = page(evil, Settings::default(), plan.as_bytes()).expect("a page");
    well_formed(&page.html);
    assert_eq!(page.html.matches("<script").count(), 2);
    assert_eq!(page.html.matches("</script>").count(), 2);
    assert_eq!(page.html.matches("</style>").count(), 1);
    assert!(!page.html.contains("<img"));
    assert!(page
        .html
        .contains("<h3>&lt;script&gt;alert(1)&lt;/script&gt;"));
}

#[test]
fn a_line_that_cannot_be_done_is_named() {
    let stopped = |plan: &str| page("p", Settings::default(), plan.as_bytes()).err();
    let message = stopped("start\n\nread 17 x\n").expect("a message");
    assert!(message.starts_with(":3: "), "{message}");
    let off = stopped("read 17\n").expect("a message");
    assert!(off.starts_with(":1: the drive is not started yet"), "{off}");
    let cuts = stopped("start\ncuts from here\n").expect("a message");
    assert!(
        cuts.starts_with(":3: \"cuts from here\", in line 2"),
        "{cuts}"
    );
}

#[test]
fn a_plan_of_nothing() {
    let empty = ": the plan is empty: no line does anything";
    let unspoken = ": no line speaks to the drive: there is nothing to judge";
    for (plan, told) in [("", empty), ("\n# a remark\n", empty), ("say\n", unspoken)] {
        let message = page("p", Settings::default(), plan.as_bytes()).err();
        assert_eq!(message.as_deref(), Some(told));
    }
    let page = made("convert\n");
    assert!(page.good);
    assert!(page
        .html
        .contains("The drive is off; the table on the platter: run number 0"));
    made("start\nsay\n\n# a remark\n");
}

#[test]
fn help_stands_in_columns() {
    let page = made("help\nhelp table\nstart\n");
    assert!(page.good);
    let html = &page.html;
    for words in [
        "<pre tabindex=\"0\">Lines of a plan, each with an example:\n\n# TEXT  ",
        "\nstart                               start\nwrite BLOCKS DATA  ",
        "<pre tabindex=\"0\">table                               table</pre>",
    ] {
        assert!(html.contains(words), "{words}");
    }
}

#[test]
fn dumped_bytes_stand_below_each_other() {
    let page = made("start\nwrite 17 26 00*531\ndump 17\n");
    let first = format!("000  26{}  |&amp;{}|", " 00".repeat(15), ".".repeat(15));
    let second = format!("010 {}  |{}|", " 00".repeat(16), ".".repeat(16));
    assert!(page.html.contains(&format!(">{first}\n{second}\n*\n")));
}

#[test]
fn a_byte_order_mark_is_no_part_of_the_first_line() {
    let page = made("\u{FEFF}say First: so\r\nstart\r\n");
    assert!(page.html.contains("<h3>First</h3>"));
    assert!(!page.html.contains('\u{FEFF}'));
}

#[test]
fn power_cuts_are_told() {
    let page = made(
        "start\nwrite 50 \"poster\"\nfault sector 50 reads next 2 crc\n\
         fault sector 50 rereads next 31 crc\npower fails during the store\nread 50 1 1\n\
         expect cut\nstart\ncuts from here\nwrite 1..2 \"a\"\ncompare 1..2 with \"a\"\n\
         cuts to here\nfault sector 5 writes next 1 timeout\n\
         power fails during the store unreadable\nwrite 5 \"b\"\nstart\nread 0..39\n",
    );
    assert!(page.good);
    let html = &page.html;
    for words in [
        "<span class=\"badge\">⚡ power fails</span>",
        "none: the power fails, the old table stays",
        "<th scope=\"row\">at a write, unreadable</th><td>2</td>",
        "<p>none is mixed, and every history is allowed</p>",
        "the power fails at a store of it, the table is unreadable",
        "No table is known.",
        "It is the home of block 50; no table says where that lives. It is readable.",
        "<span class=\"what\">read 1..39</span>",
    ] {
        assert!(html.contains(words), "{words}");
    }
    assert!(html.len() < 80_000, "{}", html.len());
}

#[test]
fn equal_accesses_are_folded() {
    let page = made(LONGEST);
    let html = &page.html;
    assert!(html.contains("<td>1..345</td><td>read</td>"));
    assert!(html.contains("<td>3680</td><td>store of the table</td>"));
    assert!(html.len() < 100_000, "{}", html.len());
}

#[test]
fn a_bad_list_and_dead_spares_are_shown() {
    let plan = "fault sector 40..42 writes all unreadable\nfault sector 17 writes all unreadable\n\
                fault sector 4928 writes all timeout\nstart\nwrite-verify 17 \"one\"\n\
                write 40..42 \"lost\"\nread 40..42 0 1\ntable\n";
    let page = made(plan);
    let html = &page.html;
    for words in [
        "<strong>dead</strong> <small>sector 4928</small>",
        "It is spare 0, and dead (timeout). It is readable.",
        "It is spare 1, and block 17 lives here (timeout). It is readable.",
        "Its block is in the bad list. It is unreadable.",
        "its block entered in the bad list",
        "bad blocks: 40..42",
    ] {
        assert!(html.contains(words), "{words}");
    }
    for class in [
        "sign left",
        "sign dead",
        "sign bad",
        "sign unreadable",
        "live",
    ] {
        let path = format!("<path class=\"{class}\"");
        assert_eq!(html.matches(&path).count(), 1, "{class}");
    }
}

#[test]
fn a_long_run_gives_a_page_of_bounded_size() {
    let traffic = "fault random seed 7 rate 1/20\nstart\ntraffic 3000 seed 3 blocks 0..199\n";
    let page = made(traffic);
    let html = &page.html;
    assert!(html.contains(" commands left out …</p>"));
    assert!(html.contains(" commands left out …</li>"));
    assert!(html.len() < 1_500_000, "{}", html.len());
}

#[test]
fn a_plan_of_many_lines_gives_a_page_of_bounded_size() {
    let mut plan = String::from("fault random seed 7 rate 1/3\nstart\n");
    for number in 0..3000 {
        writeln!(plan, "read {} 20 200\nstart", number * 3).expect("a line");
    }
    let page = made(&plan);
    let html = &page.html;
    assert!(html.contains(" lines of the plan left out …</p>"));
    assert!(html.contains("The run is long: "));
    assert!(html.contains(" lines left out …</li>"));
    assert!(html.len() < 4_000_000, "{}", html.len());
}

#[test]
fn the_whole_platter_written_gives_a_page_of_bounded_size() {
    let page = made("start\nwrite-verify 0..9727 \"all\"\n");
    let html = &page.html;
    assert!(html.contains("<td>1</td><td>write</td><td>1..4927, 4992..9791</td><td>done</td>"));
    assert!(html.len() < 600_000, "{}", html.len());
}

#[test]
fn the_same_plan_gives_the_same_page() {
    assert_eq!(made(WEEK).html, made(WEEK).html);
}
