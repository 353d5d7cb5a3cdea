//! The library against the baseline, ordinary Rust over a `&mut` record: five
//! commands, a start, the image call and converts, each with tables of three sizes.
//! `tools/bench` has the instructions counted too.

use std::env;
use std::hint::black_box;
use std::mem::size_of;
use std::process::ExitCode;
use std::time::Instant;

use controller::{baseline, raw, Answer, BUFFER, SECTOR_BYTES};
use reference::images::draft::Draft;
use reference::rng::Rng;

const USAGE: &str = "\
usage: bench                                    time, and the records' sizes
       bench WHO WHAT SPARES BADS TIMES         one kind of work, to count instructions:
                                                library or baseline; read, write, table, longest,
                                                stores, start, image or convert
       bench calls WHAT SPARES                  how many calls the work has
";

/// The seed of the tables' entries.
const SEED: u64 = 1;

/// The block that is read and written, and one that enters the bad list. Both are in
/// no list.
const BLOCK: u32 = 4000;
const OTHER: u32 = 4001;

/// The number of the table.
const TABLE_IMAGE: u32 = 0xFF_FFFF;

fn main() -> ExitCode {
    let arguments: Vec<String> = env::args().skip(1).collect();
    let words: Vec<&str> = arguments.iter().map(String::as_str).collect();
    match run(&words) {
        Some(()) => ExitCode::SUCCESS,
        None => {
            eprint!("{USAGE}");
            ExitCode::from(2)
        }
    }
}

fn run(words: &[&str]) -> Option<()> {
    match words {
        [] => times(),
        ["calls", what, spares] => println!("{}", What::named(what)?.calls(spares.parse().ok()?)),
        [who, what, spares, bads, times] => {
            let what = What::named(what)?;
            let (spares, bads) = (spares.parse().ok()?, bads.parse().ok()?);
            let times = times.parse().ok()?;
            match *who {
                "library" => bench_work(&mut Work::<raw::Drive>::new(what, spares, bads), times),
                "baseline" => {
                    bench_work(&mut Work::<baseline::Drive>::new(what, spares, bads), times);
                }
                _ => return None,
            }
        }
        _ => return None,
    }
    Some(())
}

/// Does the work so many times. Instructions are counted in here alone.
#[no_mangle]
#[inline(never)]
pub fn bench_work(work: &mut dyn Once, times: u32) {
    for _ in 0..times {
        work.once();
    }
}

/// What the time table and the counter run.
pub trait Once {
    fn once(&mut self);
}

/// A kind of work.
#[derive(Clone, Copy, Debug, PartialEq, Eq)]
enum What {
    /// A read command whose first read is good.
    Read,
    /// A plain write command.
    Write,
    /// A read of FFFFFF.
    Table,
    /// The longest read: R is 255 and all fails that may.
    Longest,
    /// A plain write command at whose end the table is to be stored, with the image
    /// call that gives its bytes. The store fails, so that it is to be stored again.
    Stores,
    /// A start whose first read brings an image of form B.
    Start,
    /// The image call.
    Image,
    /// A convert of form A into form B, and one back.
    Convert,
}

impl What {
    fn named(name: &str) -> Option<What> {
        match name {
            "read" => Some(What::Read),
            "write" => Some(What::Write),
            "table" => Some(What::Table),
            "longest" => Some(What::Longest),
            "stores" => Some(What::Stores),
            "start" => Some(What::Start),
            "image" => Some(What::Image),
            "convert" => Some(What::Convert),
            _ => None,
        }
    }

    /// How many calls it has with so many spares listed.
    fn calls(self, spares: usize) -> usize {
        match self {
            What::Read => 5 + 1,
            What::Write => 8 + 1,
            What::Table => 5,
            What::Longest => 5 + longest(spares),
            What::Stores => 8 + 1 + 2,
            What::Start => 2,
            What::Image => 1,
            What::Convert => 2,
        }
    }
}

/// Reads before any trial, the last of them good.
const READS: usize = 1 + 255 + 90;

/// Rereads of a trial.
const REREADS: usize = 100;

/// The accesses of the longest read: a trial of the present sector and of each
/// unused spare, and where one died the store.
fn longest(spares: usize) -> usize {
    tried(spares) + usize::from(spares < 32)
}

/// Those before the store.
fn tried(spares: usize) -> usize {
    READS + (1 + REREADS) * (33 - spares)
}

/// The calls that the work makes.
trait Calls: Clone {
    fn fresh() -> Self;
    fn start(&mut self, buffer: &mut [u8]);
    fn raise(&mut self, buffer: &mut [u8]);
    /// Whether a command is finished by it.
    fn lower(&mut self, buffer: &mut [u8]) -> bool;
    fn feed(&mut self, buffer: &mut [u8], bytes: &[u8]);
    /// Whether a command is finished by it.
    fn surface(&mut self, buffer: &mut [u8], answer: u8, bytes: &[u8]) -> bool;
    /// Gives a start its image. Whether it is answered by wait, as is what follows.
    fn load(&mut self, buffer: &mut [u8], image: &[u8]) -> bool;
    fn image(&self, lent: &mut [u8]) -> bool;
    fn convert(from: &[u8], to: &mut [u8]) -> bool;
}

impl Calls for raw::Drive {
    fn fresh() -> raw::Drive {
        raw::Drive::NEW
    }

    fn start(&mut self, buffer: &mut [u8]) {
        black_box(unsafe { raw::bv_start(self, buffer.as_mut_ptr(), buffer.len()) });
    }

    fn raise(&mut self, buffer: &mut [u8]) {
        black_box(unsafe { raw::bv_raise(self, buffer.as_mut_ptr(), buffer.len()) });
    }

    fn lower(&mut self, buffer: &mut [u8]) -> bool {
        black_box(unsafe { raw::bv_lower(self, buffer.as_mut_ptr(), buffer.len(), 0x55) }).kind == 5
    }

    fn feed(&mut self, buffer: &mut [u8], bytes: &[u8]) {
        let (from, n) = (bytes.as_ptr(), bytes.len());
        black_box(unsafe { raw::bv_feed(self, buffer.as_mut_ptr(), buffer.len(), from, n) });
    }

    fn surface(&mut self, buffer: &mut [u8], answer: u8, bytes: &[u8]) -> bool {
        let (buf, len) = (buffer.as_mut_ptr(), buffer.len());
        let (from, n) = (bytes.as_ptr(), bytes.len());
        unsafe { raw::bv_surface(self, buf, len, answer, from, n) }.kind == 5
    }

    fn load(&mut self, buffer: &mut [u8], image: &[u8]) -> bool {
        let (buf, len) = (buffer.as_mut_ptr(), buffer.len());
        unsafe { raw::bv_surface(self, buf, len, 0, image.as_ptr(), image.len()) }.kind == 0
    }

    fn image(&self, lent: &mut [u8]) -> bool {
        unsafe { raw::bv_image(self, lent.as_mut_ptr(), lent.len()) }.kind == 0
    }

    fn convert(from: &[u8], to: &mut [u8]) -> bool {
        let (buf, len) = (to.as_mut_ptr(), to.len());
        unsafe { raw::bv_convert(from.as_ptr(), from.len(), buf, len) }.kind == 0
    }
}

impl Calls for baseline::Drive {
    fn fresh() -> baseline::Drive {
        baseline::Drive::new()
    }

    fn start(&mut self, buffer: &mut [u8]) {
        black_box(baseline::Drive::start(self, buffer));
    }

    fn raise(&mut self, buffer: &mut [u8]) {
        black_box(baseline::Drive::raise(self, buffer));
    }

    fn lower(&mut self, buffer: &mut [u8]) -> bool {
        black_box(baseline::Drive::lower(self, buffer, 0x55)) == Answer::Finished
    }

    fn feed(&mut self, buffer: &mut [u8], bytes: &[u8]) {
        black_box(baseline::Drive::feed(self, buffer, bytes));
    }

    fn surface(&mut self, buffer: &mut [u8], answer: u8, bytes: &[u8]) -> bool {
        baseline::Drive::surface(self, buffer, answer, bytes) == Answer::Finished
    }

    fn load(&mut self, buffer: &mut [u8], image: &[u8]) -> bool {
        baseline::Drive::surface(self, buffer, 0, image) == Answer::Wait
    }

    fn image(&self, lent: &mut [u8]) -> bool {
        baseline::Drive::image(self, lent) == Answer::Wait
    }

    fn convert(from: &[u8], to: &mut [u8]) -> bool {
        baseline::convert(from, to) == Answer::Wait
    }
}

/// A drive with a table, and the work on it.
struct Work<D> {
    what: What,
    /// As the longest read finds it, which fills the spare list.
    began: D,
    drive: D,
    buffer: [u8; BUFFER],
    bytes: [u8; SECTOR_BYTES],
    /// The table's image in form A and in form B, and bytes to write another into.
    image: Vec<u8>,
    stored: [u8; SECTOR_BYTES],
    lent: [u8; SECTOR_BYTES],
    spares: usize,
}

impl<D: Calls> Work<D> {
    fn new(what: What, spares: usize, bads: usize) -> Work<D> {
        let draft = Draft::of_size(&mut Rng::new(SEED), spares, bads);
        let listed = |block| draft.spares.contains(&block) || draft.bads.contains(&block);
        assert!(!listed(BLOCK) && !listed(OTHER), "they are in no list");
        let image = draft.bytes();
        let mut drive = D::fresh();
        let mut buffer = [0; BUFFER];
        drive.start(&mut buffer);
        assert!(drive.load(&mut buffer, &image), "the image is taken");
        let mut stored = [0; SECTOR_BYTES];
        assert!(drive.image(&mut stored), "the table is known");
        let began = drive.clone();
        let mut work = Work {
            what,
            began,
            drive,
            buffer,
            bytes: [0x5A; SECTOR_BYTES],
            image,
            stored,
            lent: [0; SECTOR_BYTES],
            spares,
        };
        if what == What::Stores {
            work.change(&draft.bads);
        }
        work
    }

    /// All of a handshake before the data or the access; whether the command is
    /// finished with it.
    fn begin(&mut self, opcode: u8, number: u32) -> bool {
        let (drive, buffer) = (&mut self.drive, &mut self.buffer[..]);
        drive.raise(buffer);
        drive.lower(buffer);
        let [_, high, middle, low] = number.to_be_bytes();
        let command = [opcode, high, middle, low, 255, 1];
        drive.feed(buffer, &command[..if opcode == 0 { 6 } else { 4 }]);
        drive.raise(buffer);
        drive.lower(buffer)
    }

    /// A write command; whether it is finished.
    fn write(&mut self) -> bool {
        self.begin(1, BLOCK);
        let (drive, buffer) = (&mut self.drive, &mut self.buffer[..]);
        drive.feed(buffer, &self.bytes);
        drive.raise(buffer);
        drive.lower(buffer);
        drive.surface(buffer, 0, &[])
    }

    /// The longest read; whether it is finished.
    fn longest(&mut self) -> bool {
        self.drive = self.began.clone();
        let mut finished = self.begin(0, BLOCK);
        let (drive, buffer) = (&mut self.drive, &mut self.buffer[..]);
        for _ in 1..READS {
            drive.surface(buffer, 1, &self.bytes);
        }
        drive.surface(buffer, 0, &self.bytes);
        for access in 0..tried(self.spares) - READS {
            finished = match access % (1 + REREADS) {
                0 => drive.surface(buffer, 0, &[]),
                _ => drive.surface(buffer, 1, &self.bytes),
            };
        }
        match longest(self.spares) > tried(self.spares) {
            true => drive.surface(buffer, 0, &[]),
            false => finished,
        }
    }

    /// A write command and its store, which fails; whether it is finished.
    fn stores(&mut self) -> bool {
        self.write();
        self.drive.image(&mut self.lent);
        self.drive.surface(&mut self.buffer, 2, &[])
    }

    /// Leaves changes unstored, and the lists as long as they were: a block enters the
    /// bad list and leaves it, or the other way round where the list is full.
    fn change(&mut self, bads: &[u32]) {
        let finished = match bads {
            [] => self.enter(OTHER) && self.leave(OTHER),
            [bad, ..] => self.leave(*bad) && self.enter(*bad),
        };
        assert!(finished, "a store ends the command");
    }

    /// Reads a block that never comes, and does not store that; whether it is finished.
    fn enter(&mut self, block: u32) -> bool {
        self.begin(0, block);
        for _ in 0..1 + 255 + 10 {
            self.drive.surface(&mut self.buffer, 2, &[]);
        }
        self.drive.surface(&mut self.buffer, 2, &[])
    }

    /// Writes a bad block, whose sector passes its trial, and does not store that;
    /// whether it is finished.
    fn leave(&mut self, block: u32) -> bool {
        self.begin(1, block);
        let (drive, buffer) = (&mut self.drive, &mut self.buffer[..]);
        drive.feed(buffer, &self.bytes);
        drive.raise(buffer);
        drive.lower(buffer);
        drive.surface(buffer, 0, &[]);
        for _ in 0..REREADS {
            drive.surface(buffer, 0, &self.bytes);
        }
        drive.surface(buffer, 2, &[])
    }

    /// A start; whether it takes the image.
    fn start(&mut self) -> bool {
        self.drive.start(&mut self.buffer);
        self.drive.load(&mut self.buffer, &self.stored)
    }

    /// Two converts; whether both are taken.
    fn convert(&mut self) -> bool {
        D::convert(&self.image, &mut self.lent) && D::convert(&self.lent, &mut self.bytes)
    }
}

impl<D: Calls> Once for Work<D> {
    fn once(&mut self) {
        let finished = match self.what {
            What::Read => {
                self.begin(0, BLOCK);
                self.drive.surface(&mut self.buffer, 0, &self.bytes)
            }
            What::Write => self.write(),
            What::Table => self.begin(0, TABLE_IMAGE),
            What::Longest => self.longest(),
            What::Stores => self.stores(),
            What::Start => self.start(),
            What::Image => self.drive.image(&mut self.lent),
            What::Convert => self.convert(),
        };
        assert!(finished, "the work is over with its last call");
    }
}

const SIZES: [(usize, usize); 3] = [(0, 0), (10, 10), (32, 100)];

const WORKS: [(&str, What, u32); 8] = [
    ("read", What::Read, 2000),
    ("write", What::Write, 1500),
    ("table", What::Table, 1500),
    ("longest", What::Longest, 4),
    ("stores", What::Stores, 1200),
    ("start", What::Start, 1500),
    ("image", What::Image, 5000),
    ("convert", What::Convert, 2500),
];

/// Short runs, so that one of them is not disturbed.
const ROUNDS: usize = 150;

fn times() {
    println!(
        "record: library {} bytes, baseline {}",
        size_of::<raw::Drive>(),
        size_of::<baseline::Drive>()
    );
    println!("nanoseconds a call, the best of many short runs in turns:");
    println!("work      lists    library  baseline  ratio");
    for (name, what, count) in WORKS {
        for (spares, bads) in SIZES {
            let mut library = Work::<raw::Drive>::new(what, spares, bads);
            let mut baseline = Work::<baseline::Drive>::new(what, spares, bads);
            let calls = f64::from(count) * what.calls(spares) as f64;
            let (mut one, mut other) = (f64::MAX, f64::MAX);
            for _ in 0..ROUNDS {
                one = one.min(timed(&mut library, count) / calls);
                other = other.min(timed(&mut baseline, count) / calls);
            }
            let lists = format!("{spares}+{bads}");
            println!(
                "{name:9} {lists:8} {one:7.1}  {other:8.1}  {:5.2}",
                one / other
            );
        }
    }
}

/// Nanoseconds for the work so many times.
fn timed(work: &mut dyn Once, count: u32) -> f64 {
    let began = Instant::now();
    bench_work(work, count);
    began.elapsed().as_secs_f64() * 1e9
}
