//! Wrong lines, and all that is said of each.

use super::*;

/// Examples of the help, and lines of another form with what is said of each.
pub const FORMS: &[(&str, &[(&str, &str)])] = &[
    ("help read", &[("help read now", "\"now\" is too much")]),
    ("start", &[("start now", "\"now\" is too much")]),
    (
        "write 17 \"Monday's layout\"",
        &[
            ("write", "a block or a range of blocks is missing"),
            ("write x", "a block is a number, and \"x\" is none"),
            ("write 17", "the data is missing"),
            ("write 17..", "17.. is no range: a number is missing"),
            ("write ..17", "..17 is no range: a number is missing"),
            ("write 17 5", "\"5\" is no data: a byte is two hex digits"),
            ("write 17 zz", "\"zz\" is no data: a byte is two hex digits"),
            ("write 17 \"a", "\"a is no text between two quotation marks"),
            (
                "write 17 \"\"",
                "the text between the quotation marks is missing",
            ),
            ("write 17 file", "the name behind \"file\" is missing"),
            ("write 17 file a at", "the offset behind \"at\" is missing"),
            (
                "write 17 file a at x",
                "the offset behind \"at\" is a number, and \"x\" is none",
            ),
            ("write 17 file a b", "\"b\" is too much"),
            ("write 17 file \"a b\" c", "\"c\" is too much"),
            (
                "write 17 file \"a b at 5",
                "the closing quotation mark of \"a b at 5 is missing",
            ),
            (
                "write 17 file \"\" at 5",
                "the name between the quotation marks is missing",
            ),
            (
                "write 17 file \"a\"at 5",
                "\"at 5\" touches the quotation mark before it",
            ),
            ("write 17 nothing 00", "\"00\" is too much"),
            ("write 17 00*0", "\"00*0\" is no data: a count is 1 to 4096"),
            (
                "write 17 \"a\" b\"",
                "\"a\" b\" is no text between two quotation marks",
            ),
        ],
    ),
    (
        "write-verify 0..39 file front.dat at 0",
        &[
            ("write-verify", "a block or a range of blocks is missing"),
            ("write-verify 3", "the data is missing"),
        ],
    ),
    (
        "read 0..39 10 3 to back.dat",
        &[
            ("read", "a block or a range of blocks is missing"),
            ("read x", "a block is a number, and \"x\" is none"),
            ("read 17 x", "\"x\" is neither R, a number, nor \"to\""),
            ("read 17 1 x", "\"x\" is neither T, a number, nor \"to\""),
            ("read 17 1 2 3", "\"3\" is too much"),
            ("read 17 to", "the name of a file behind \"to\" is missing"),
            ("read 17 to a b", "\"b\" is too much"),
            (
                "read 17 to \"a.dat",
                "the closing quotation mark of \"a.dat is missing",
            ),
            (
                "read 17 to \"",
                "the closing quotation mark of \" is missing",
            ),
            (
                "read 17 to \"  \"",
                "the name between the quotation marks is missing",
            ),
            (
                "read 17 to \"a\"b\"",
                "\"b\"\" touches the quotation mark before it",
            ),
            ("read +1", "a block is a number, and \"+1\" is none"),
            ("read -1", "a block is a number, and \"-1\" is none"),
            ("read $", "a block is a number, and \"$\" is none"),
            (
                "read 99999999999999999999",
                "a block is a number, and \"99999999999999999999\" is none",
            ),
            ("read 1..", "1.. is no range: a number is missing"),
        ],
    ),
    (
        "compare 0..39 with file front.dat",
        &[
            ("compare", "a block or a range of blocks is missing"),
            ("compare 5", "\"with\" and the data are missing"),
            ("compare 5 10", "\"with\" and the data are missing"),
            ("compare 5 10 3", "\"with\" and the data are missing"),
            ("compare 5 with", "the data is missing"),
            (
                "compare 5 \"a\"",
                "\"\"a\"\" is neither R, a number, nor \"with\"",
            ),
            (
                "compare 5 with 00 xx",
                "\"xx\" is no data: a byte is two hex digits",
            ),
        ],
    ),
    (
        "dump 17",
        &[
            ("dump", "a block is missing"),
            ("dump x", "a block is a number, and \"x\" is none"),
            ("dump 3..4", "a block is a number, and \"3..4\" is none"),
            ("dump 3 4", "\"4\" is too much"),
        ],
    ),
    ("health", &[("health 3", "\"3\" is too much")]),
    ("raise", &[("raise 3", "\"3\" is too much")]),
    (
        "lower 00",
        &[
            ("lower", "the byte on the bus is missing"),
            ("lower 5", "a byte is two hex digits, not \"5\""),
            ("lower 00 00", "\"00\" is too much"),
        ],
    ),
    ("reset", &[("reset 1", "\"1\" is too much")]),
    ("table", &[("table 1", "\"1\" is too much")]),
    ("convert", &[("convert x", "\"x\" is too much")]),
    (
        "traffic 100000 seed 3 blocks 0..199",
        &[
            ("traffic", "the number of commands is missing"),
            (
                "traffic x",
                "the number of commands is a number, and \"x\" is none",
            ),
            ("traffic 5 seed", "the seed is missing"),
            (
                "traffic 5 seed x",
                "the seed is a number, and \"x\" is none",
            ),
            (
                "traffic 5 blocks",
                "a block or a range of blocks is missing",
            ),
            (
                "traffic 5 blocks x",
                "a block is a number, and \"x\" is none",
            ),
            ("traffic 5 6", "\"6\" is no part of traffic"),
        ],
    ),
    (
        "expect good spared errors 4 status 0c 04 00 04",
        &[
            ("expect errors", "E, the count of errors, is missing"),
            (
                "expect errors x",
                "E, the count of errors, is a number, and \"x\" is none",
            ),
            ("expect accesses", "N, the count of accesses, is missing"),
            (
                "expect accesses x",
                "N, the count of accesses, is a number, and \"x\" is none",
            ),
            (
                "expect status",
                "the first of the four status bytes is missing",
            ),
            (
                "expect status 00",
                "the second of the four status bytes is missing",
            ),
            (
                "expect status 00 00 00",
                "the fourth of the four status bytes is missing",
            ),
            (
                "expect status 00 0 00 00",
                "a byte is two hex digits, not \"0\"",
            ),
        ],
    ),
    (
        "fault sector 17 reads next 2 crc",
        &[
            ("fault", "sector, random or clear is missing"),
            (
                "fault 17",
                "after fault comes sector, random or clear, not \"17\"",
            ),
            ("fault sector", "a sector or a range of sectors is missing"),
            ("fault sector x", "a sector is a number, and \"x\" is none"),
            (
                "fault sector 5",
                "reads, rereads, writes or clear is missing",
            ),
            (
                "fault sector 5 verifies",
                "\"verifies\" is neither reads, rereads, writes nor clear",
            ),
            (
                "fault sector 5 reads",
                "next, all, every, fail or in-turn is missing",
            ),
            (
                "fault sector 5 reads 3",
                "\"3\" is neither next, all, every, fail nor in-turn",
            ),
            (
                "fault sector 5 reads next",
                "the number of accesses is missing",
            ),
            (
                "fault sector 5 reads next x",
                "the number of accesses is a number, and \"x\" is none",
            ),
            (
                "fault sector 5 reads next 2",
                "the fault (crc, timeout, no-settle or good) is missing",
            ),
            (
                "fault sector 5 reads next 2 boo",
                "\"boo\" is no fault: crc, timeout, no-settle, unreadable or good",
            ),
            ("fault sector 5 reads next 2 crc crc", "\"crc\" is too much"),
            (
                "fault sector 17 rereads",
                "next, all, every, fail or in-turn is missing",
            ),
        ],
    ),
    (
        "fault sector 17 clear",
        &[("fault sector 5 clear now", "\"now\" is too much")],
    ),
    (
        "fault sector 4928..4931 writes all timeout",
        &[(
            "fault sector 5 writes all",
            "the fault (unreadable, timeout, no-settle or good) is missing",
        )],
    ),
    (
        "fault sector 300 reads every 3 timeout",
        &[
            (
                "fault sector 5 reads every",
                "the number of accesses is missing",
            ),
            (
                "fault sector 5 reads every 3",
                "the fault (crc, timeout, no-settle or good) is missing",
            ),
        ],
    ),
    (
        "fault sector 17 rereads fail 31 of 100 crc",
        &[
            (
                "fault sector 5 reads fail",
                "the number of failures is missing",
            ),
            (
                "fault sector 5 reads fail 3",
                "\"of\" and the number of accesses are missing",
            ),
            (
                "fault sector 5 reads fail 3 9",
                "after the number of failures comes \"of\", not \"9\"",
            ),
            (
                "fault sector 5 reads fail 3 of",
                "the number of accesses is missing",
            ),
            (
                "fault sector 5 writes fail 3 of 9",
                "the fault (unreadable, timeout or no-settle) is missing",
            ),
            (
                "fault sector 17 rereads fail 31",
                "\"of\" and the number of accesses are missing",
            ),
            (
                "fault sector 17 rereads fail 31 of",
                "the number of accesses is missing",
            ),
            (
                "fault sector 17 rereads fail 31% of 100",
                "the number of failures is a number, and \"31%\" is none",
            ),
            (
                "fault sector 17 rereads fail 31 of 100 rereads",
                "\"rereads\" is no fault: crc, timeout, no-settle, unreadable or good",
            ),
        ],
    ),
    (
        "fault sector 17 reads in-turn crc good*3 crc",
        &[
            (
                "fault sector 5 reads in-turn",
                "the fault (crc, timeout, no-settle or good) is missing",
            ),
            (
                "fault sector 5 reads in-turn crc*x",
                "a count is a number, and \"x\" is none",
            ),
        ],
    ),
    ("fault clear", &[("fault clear now", "\"now\" is too much")]),
    (
        "fault random seed 7 rate 1/50 dying 1/4",
        &[
            ("fault random", "\"seed\" is missing"),
            (
                "fault random 7",
                "after \"fault random\" comes \"seed\", not \"7\"",
            ),
            ("fault random seed", "the seed is missing"),
            (
                "fault random seed x",
                "the seed is a number, and \"x\" is none",
            ),
            ("fault random seed 7", "\"rate\" is missing"),
            (
                "fault random seed 7 1/50",
                "after the seed comes \"rate\", not \"1/50\"",
            ),
            ("fault random seed 7 rate", "the rate is missing"),
            ("fault random seed 7 rate 5", "a rate is N/M, not \"5\""),
            (
                "fault random seed 7 rate x/2",
                "the rate's first number is a number, and \"x\" is none",
            ),
            (
                "fault random seed 7 rate 1/50 dying",
                "the share is missing",
            ),
            (
                "fault random seed 7 rate 1/50 dying 5",
                "a share is N/M, not \"5\"",
            ),
            ("fault random seed 7 rate 1/50 dead", "\"dead\" is too much"),
            ("fault random seed 7 rate 1/2 dying", "the share is missing"),
            (
                "fault random seed 7 rate 1/2 dying 1",
                "a share is N/M, not \"1\"",
            ),
            (
                "fault random seed 7 rate 1/2 dead 1/2",
                "\"dead 1/2\" is too much",
            ),
            (
                "fault random sed 7",
                "after \"fault random\" comes \"seed\", not \"sed\"",
            ),
        ],
    ),
    (
        "power fails at access 105 unreadable",
        &[
            ("power", "\"fails\" is missing"),
            ("power off", "after power comes \"fails\", not \"off\""),
            (
                "power fails",
                "\"at access N\" or \"during the store\" is missing",
            ),
            (
                "power fails now",
                "the power fails at access N, or during the store, not \"now\"",
            ),
            ("power fails at", "\"access\" is missing"),
            (
                "power fails at 5",
                "after \"power fails at\" comes \"access\", not \"5\"",
            ),
            (
                "power fails at access",
                "the number of the access is missing",
            ),
            (
                "power fails at access x",
                "the number of the access is a number, and \"x\" is none",
            ),
            (
                "power fails at access 5 spoiled",
                "a write leaves its sector old, new or unreadable, not \"spoiled\"",
            ),
            ("power fails at access 5 old new", "\"new\" is too much"),
            (
                "power fails at access old",
                "the number of the access is a number, and \"old\" is none",
            ),
            ("power fails at access 3 old new", "\"new\" is too much"),
        ],
    ),
    (
        "power fails during the store new",
        &[
            ("power fails during", "\"the store\" is missing"),
            (
                "power fails during store",
                "after \"power fails during\" comes \"the store\", not \"store\"",
            ),
            ("power fails during the", "\"the store\" is missing"),
            (
                "power fails during the store spoiled",
                "a write leaves its sector old, new or unreadable, not \"spoiled\"",
            ),
        ],
    ),
    (
        "cuts from here",
        &[
            ("cuts", "\"from here\" or \"to here\" is missing"),
            (
                "cuts here",
                "after cuts comes \"from here\" or \"to here\", not \"here\"",
            ),
            ("cuts from", "\"here\" is missing"),
            ("cuts from here now", "\"now\" is too much"),
        ],
    ),
    (
        "cuts to here",
        &[
            ("cuts to", "\"here\" is missing"),
            ("cuts to here 5", "\"5\" is too much"),
        ],
    ),
];

/// Lines with something wrong in them, of which the message says all.
pub const VALUES: &[(&str, &str)] = &[
    (
        "help raed",
        "\"raed\" begins no line of a plan; did you mean \"read\"?",
    ),
    (
        "help xyz",
        "\"xyz\" begins no line of a plan; the line \"help\" shows all",
    ),
    ("write 5..4", "5..4 is no range: 5 is above 4"),
    ("write 17 00*4096 00", "4097 bytes are more than 4096"),
    ("read 0..9728", "a block is 9727 at most, not 9728"),
    ("read 16777216", "a block is 16777215 at most, not 16777216"),
    ("read 17 256", "R is 255 at most, not 256"),
    (
        "compare 5 with nothing",
        "\"nothing\" can be written, not compared with",
    ),
    ("traffic 0", "the number of commands is 1 at least, not 0"),
    (
        "traffic 5 blocks $FFFFFF",
        "a block is 9727 at most, not $FFFFFF",
    ),
    (
        "expect errors 256",
        "E, the count of errors, is 255 at most, not 256",
    ),
    ("fault sector 9792", "a sector is 9791 at most, not 9792"),
    (
        "fault sector 5 reads next 0",
        "the number of accesses is 1 at least, not 0",
    ),
    ("fault sector 5 writes all crc", "a write has no CRC error"),
    (
        "fault sector 5 reads all unreadable",
        "a read leaves its sector as it is",
    ),
    (
        "fault sector 5 reads fail 3 of 2",
        "of 2 accesses 2 at most can fail, not 3",
    ),
    (
        "fault sector 5 reads fail 3 of 9 good",
        "\"good\" is no failure",
    ),
    (
        "fault sector 5 reads in-turn crc*0",
        "a count is 1 at least, not 0",
    ),
    (
        "fault random seed 7 rate 3/2",
        "the rate's first number is 2 at most, not 3",
    ),
    (
        "power fails at access 0",
        "the number of the access is 1 at least, not 0",
    ),
    (
        "red 17",
        "\"red\" begins no line of a plan; did you mean \"read\"?",
    ),
    (
        "Start",
        "\"Start\" begins no line of a plan; did you mean \"start\"?",
    ),
    ("read 5..4", "5..4 is no range: 5 is above 4"),
    ("read 17 1 256", "T is 255 at most, not 256"),
    (
        "compare 17 with nothing",
        "\"nothing\" can be written, not compared with",
    ),
    (
        "healthy",
        "\"healthy\" begins no line of a plan; did you mean \"health\"?",
    ),
    (
        "fault sector 9792 reads all crc",
        "a sector is 9791 at most, not 9792",
    ),
    ("fault sector 17 writes all crc", "a write has no CRC error"),
    (
        "fault sector 17 reads all unreadable",
        "a read leaves its sector as it is",
    ),
    (
        "fault sector 17 reads next 0 crc",
        "the number of accesses is 1 at least, not 0",
    ),
    (
        "fault sector 17 rereads all unreadable",
        "a read leaves its sector as it is",
    ),
    (
        "fault sector 17 rereads fail 31 of 0",
        "the number of accesses is 1 at least, not 0",
    ),
    (
        "fault sector 17 rereads fail 31 of 30",
        "of 30 accesses 30 at most can fail, not 31",
    ),
    (
        "fault sector 17 rereads fail 31 of 100 good",
        "\"good\" is no failure",
    ),
    (
        "fault random seed 7 rate 1/2 dying 0/0",
        "the share's second number is 1 at least, not 0",
    ),
    (
        "help reads",
        "\"reads\" begins no line of a plan; did you mean \"read\"?",
    ),
];

#[test]
fn lines_of_another_form_are_told_with_an_example() {
    for (example, lines) in FORMS {
        for (line, fault) in *lines {
            let message = format!("{fault}; an example: {example}");
            assert_eq!(parse(line), Err(message), "{line}");
        }
    }
}

#[test]
fn lines_with_something_wrong_in_them() {
    for (line, message) in VALUES {
        assert_eq!(parse(line), Err(String::from(*message)), "{line}");
    }
}

#[test]
fn the_words_that_can_be_expected_are_told() {
    let example = "expect good spared errors 4 status 0c 04 00 04";
    let message = "what is expected is missing; the words are";
    let missing = format!("{message} {EXPECTED}; an example: {example}");
    assert_eq!(parse("expect"), Err(missing));
    let other = format!("\"joy\" cannot be expected; the words are {EXPECTED}");
    assert_eq!(parse("expect joy"), Err(other));
}
