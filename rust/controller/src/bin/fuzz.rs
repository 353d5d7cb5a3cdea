//! The comparison through the C library: random lists of calls, valid and hostile,
//! on the library, on the reference implementation and on the baseline; and calls
//! on damaged records. Its last line says how many calls agreed.

use std::env;
use std::process::ExitCode;

use controller::compare::beside::{Beside, Fate, MOST_LENT};
use controller::compare::trial::{self, length};
use controller::compare::{bounds, clauses, converts, damage, stores};
use controller::fields::Fields;
use reference::compare::Plan;
use reference::controller::{Awaited, Offer, Phase};
use reference::coverage;
use reference::drive::Call;
use reference::images::draft_b::{summed, DraftB};
use reference::rng::Rng;
use reference::script::{self, Line};
use reference::surface::{near_miss, plain_bytes};
use reference::{scripts, text};

const USAGE: &str = "\
usage: fuzz SEEDS CALLS [FIRST]   a list of about so many calls for each seed, with
                                  short lists that leave it and damaged records;
                                  SEEDS and CALLS are at least 1
";

fn main() -> ExitCode {
    let Some(plan) = plan() else {
        eprint!("{USAGE}");
        return ExitCode::from(2);
    };
    let mut tally = Tally::default();
    match compared(&plan, &mut tally) {
        Ok(sides) => {
            tally.report(&plan, sides);
            ExitCode::SUCCESS
        }
        Err(difference) => {
            println!("after {} calls, {difference}", tally.calls());
            ExitCode::FAILURE
        }
    }
}

/// The plan of the arguments: for each of its seeds a list is made.
fn plan() -> Option<Plan> {
    let words = env::args().skip(1);
    let numbers: Option<Vec<u64>> = words.map(|word| word.parse().ok()).collect();
    let (seeds, calls, first) = match numbers?[..] {
        [seeds, calls] => (seeds, calls, 1),
        [seeds, calls, first] => (seeds, calls, first),
        _ => return None,
    };
    let plan = Plan::new(first, seeds, calls.try_into().ok()?);
    if plan.is_none() {
        eprintln!("fuzz: with 0 seeds or 0 calls no list is compared");
    }
    plan
}

/// Compares all there is. Says how many names of code 1 were met, or the first
/// thing that is not as it must be.
fn compared(plan: &Plan, tally: &mut Tally) -> Result<usize, String> {
    let mut rng = Rng::new(plan.first);
    let sides = code_1(&mut rng, tally)?;
    tally.verifies = trial::every_place(&mut rng)?;
    tally.converts = converts::all(&mut rng)?.calls();
    tally.stores = stores::all()?;
    for record in damage::sweep() {
        tried(&record, &mut rng, tally)
            .map_err(|difference| format!("a record with one field changed: {difference}"))?;
    }
    for seed in plan.each_seed() {
        list(seed, plan.calls.get(), tally)
            .map_err(|difference| format!("seed {seed}: {difference}"))?;
    }
    Ok(sides)
}

/// Makes the calls on records at and beyond each bound of code 1. Every name must
/// be met.
fn code_1(rng: &mut Rng, tally: &mut Tally) -> Result<usize, String> {
    let mut met = clauses::Met::default();
    for record in bounds::records() {
        let refused = tried(&record, rng, tally)
            .map_err(|difference| format!("a record for code 1: {difference}"))?;
        met.count(&record, refused)
            .map_err(|said| format!("a record for code 1: {said}\n{record:?}"))?;
    }
    match met.missed()[..] {
        [] => Ok(clauses::names().len()),
        ref missed => Err(format!(
            "{} names of code 1 were not met:\n{}",
            missed.len(),
            missed.join("\n")
        )),
    }
}

/// How many calls were made.
#[derive(Debug, Default)]
struct Tally {
    listed: u64,
    short_lists: u64,
    short_calls: u64,
    lengths: u64,
    verifies: u64,
    converts: u64,
    stores: u64,
    records: u64,
    no_phase: u64,
    refused: u64,
    other_code: u64,
    taken: u64,
    unsettled: u64,
}

impl Tally {
    fn damaged(&self) -> u64 {
        self.no_phase + self.refused + self.other_code + self.taken + self.unsettled
    }

    fn calls(&self) -> u64 {
        let lists = self.listed + self.short_calls + self.lengths + self.stores;
        lists + self.verifies + self.converts + self.damaged()
    }

    /// Says what agreed; so many names of code 1 were met.
    fn report(&self, plan: &Plan, sides: usize) {
        let names = coverage::report();
        println!("{}", names.lines().last().unwrap_or_default());
        println!("all {sides} names of code 1 were met");
        println!(
            "{} calls of {} lists, {} of {} short lists that leave them, \
             {} with every length from 0 to {MOST_LENT}, {} verifies with one byte wrong",
            self.listed,
            plan.seeds,
            self.short_calls,
            self.short_lists,
            self.lengths,
            self.verifies
        );
        println!(
            "{} converts of images that are whole, broken in each clause or damaged, \
             {} calls from every kind of run number",
            self.converts, self.stores
        );
        println!(
            "{} calls on {} damaged records: {} with no such phase, {} with 1, \
             {} with another code, {} taken alike, {} taken where document 01 is silent",
            self.damaged(),
            self.records,
            self.no_phase,
            self.refused,
            self.other_code,
            self.taken,
            self.unsettled
        );
        println!("{} calls agreed", self.calls());
    }
}

/// The list of a seed: the reference's random script, with short lists and damaged
/// records at some of its calls.
fn list(seed: u64, calls: usize, tally: &mut Tally) -> Result<(), String> {
    let mut rng = Rng::new(seed ^ 0xB0A2_D000_0000_0000);
    let text = scripts::random(seed, calls);
    let made = text::lines(text.as_bytes()).count();
    if made < calls {
        return Err(format!("a list of {made} calls in place of {calls}"));
    }
    let mut beside = Beside::new();
    for (number, said) in text::lines(text.as_bytes()) {
        let place = |what: &str, said: String| format!("{what} at line {number}: {said}");
        let line = script::parse(said).map_err(|fault| place("fault", fault.to_string()))?;
        one(&mut beside, &line).map_err(|said| place("list", said))?;
        tally.listed += 1;
        if rng.one_in(10) {
            short(beside.clone(), &mut rng, tally).map_err(|said| place("short list", said))?;
        }
        if rng.one_in(12) {
            let record = match rng.below(3) {
                0 => damage::of(&beside.record(), &mut rng),
                _ => damage::record(&mut rng),
            };
            tried(&record, &mut rng, tally).map_err(|said| place("damaged record", said))?;
        }
    }
    lengths(&beside, &mut rng, tally)
}

/// A call of a list's end, with a buffer of every length.
fn lengths(beside: &Beside, rng: &mut Rng, tally: &mut Tally) -> Result<(), String> {
    for length in 0..=MOST_LENT {
        let convert = Call::Convert(image(rng));
        for call in [any(rng), fitting(beside, rng), Call::Image, convert] {
            let lend = Some(length);
            one(&mut beside.clone(), &Line { lend, call })?;
            tally.lengths += 1;
        }
    }
    Ok(())
}

fn one(beside: &mut Beside, line: &Line) -> Result<(), String> {
    match beside.call(line.lend, &line.call) {
        Ok(_) => Ok(()),
        Err(difference) => Err(format!("{}\n{difference}", script::show(line))),
    }
}

/// A list of a few calls from here on, of which half fit.
fn short(mut beside: Beside, rng: &mut Rng, tally: &mut Tally) -> Result<(), String> {
    tally.short_lists += 1;
    for _ in 0..1 + rng.below(12) {
        let call = match rng.below(2) {
            0 => fitting(&beside, rng),
            _ => any(rng),
        };
        let lend = rng.one_in(4).then(|| length(&call, rng));
        one(&mut beside, &Line { lend, call })?;
        tally.short_calls += 1;
    }
    Ok(())
}

/// A call that is in place.
fn fitting(beside: &Beside, rng: &mut Rng) -> Call {
    let phase = beside.phase();
    match (phase.awaited(), phase) {
        (Some(Awaited::Read), Phase::Starting { .. }) if rng.one_in(2) => {
            Call::Surface(0, image(rng))
        }
        (Some(Awaited::Read), _) => match rng.below(10) {
            0 => Call::Surface(3, vec![]),
            1 => Call::Surface(2, vec![]),
            // What the data part holds verifies, and what it nearly holds does not.
            2 | 3 => Call::Surface(0, beside.buffer()[4..].to_vec()),
            4 | 5 => Call::Surface(0, near_miss(rng, &beside.buffer()[4..])),
            n => Call::Surface((n % 2) as u8, plain_bytes(rng)),
        },
        (Some(Awaited::Write), _) => Call::Surface(rng.pick(&[0, 0, 0, 2, 3]), vec![]),
        (None, Phase::Command) if rng.one_in(2) => command(rng),
        (None, Phase::Data) if rng.one_in(2) => {
            let count = rng.pick(&[0, 1, 100, 531, 532, 533, 600]);
            Call::Feed(vec![rng.byte(); count])
        }
        (None, Phase::Offered(offer)) => match rng.below(20) {
            0 if offer != Offer::Command => Call::Lower(rng.byte()),
            _ => Call::Lower(0x55),
        },
        (None, _) => Call::Raise,
    }
}

fn command(rng: &mut Rng) -> Call {
    let number: u32 = rng.pick(&[
        0, 17, 4927, 4928, 9727, 9728, 0xFF_FFFC, 0xFF_FFFD, 0xFF_FFFE, 0xFF_FFFF,
    ]);
    let [_, high, middle, low] = number.to_be_bytes();
    let mut bytes = vec![rng.below(4) as u8, high, middle, low];
    bytes.extend([
        rng.pick(&[0, 1, 2, 255]),
        rng.pick(&[0, 1, 2, 255]),
        rng.byte(),
    ]);
    bytes.truncate(rng.pick(&[0, 1, 3, 4, 5, 6, 6, 6, 7]));
    Call::Feed(bytes)
}

/// An image of either form, one in four with a byte changed and often the right sum.
fn image(rng: &mut Rng) -> Vec<u8> {
    let draft = DraftB::of_any_size(rng);
    let of_b = rng.one_in(2);
    let mut bytes = match of_b {
        true => draft.bytes(),
        false => draft.form_a().bytes(),
    };
    if !rng.one_in(4) {
        return bytes;
    }
    let place = match rng.below(3) {
        0 => rng.place(bytes.len()),
        _ => rng.place(40),
    };
    bytes[place] = rng.other_byte(bytes[place]);
    match of_b && rng.one_in(2) {
        true => summed(bytes),
        false => bytes,
    }
}

/// Any call with any arguments.
fn any(rng: &mut Rng) -> Call {
    match rng.below(10) {
        0 => Call::Start,
        1 | 2 => Call::Raise,
        3 => Call::Lower(rng.pick(&[0x55, 0x55, 0x54, 0, 0xFF])),
        4 => {
            let count = rng.pick(&[0, 1, 5, 6, 7, 532, 533, 600]);
            Call::Feed(vec![rng.byte(); count])
        }
        5 | 6 => {
            let answer = rng.pick(&[0, 0, 1, 1, 2, 3, 4, 5, 255]);
            let count = rng.pick(&[0, 0, 0, 1, 531, 532, 532, 533]);
            Call::Surface(answer, vec![rng.byte(); count])
        }
        7 => Call::Reset,
        8 => convert(rng),
        _ => Call::Image,
    }
}

/// A convert, one in eight of bytes that are not 532.
fn convert(rng: &mut Rng) -> Call {
    let mut bytes = image(rng);
    if rng.one_in(8) {
        bytes.resize(rng.pick(&[0, 1, 4, 26, 530, 531, 533, 536, 1064]), 0);
    }
    Call::Convert(bytes)
}

/// The seven calls on a damaged record; says whether code 1 refused it.
fn tried(record: &Fields, rng: &mut Rng, tally: &mut Tally) -> Result<bool, String> {
    let tried = trial::all_calls(record, rng)?;
    tally.records += 1;
    for fate in tried.fates {
        *match fate {
            Fate::NoPhase => &mut tally.no_phase,
            Fate::Refused => &mut tally.refused,
            Fate::OtherCode => &mut tally.other_code,
            Fate::Taken => &mut tally.taken,
            Fate::Unsettled => &mut tally.unsettled,
        } += 1;
    }
    Ok(tried.refused)
}
