//! An estimate of time: what a run's commands would take on the drive of document 000.
//! All that is assumed of that drive stands here; `docs/WORKBENCH.md`, "Time", says it in
//! words. The same accesses take the same time.

use std::fmt;
use std::iter::Sum;
use std::ops::{Add, AddAssign, Mul, Sub};

use reference::geometry::{Sector, SECTORS};

use crate::surface;

/// A length of time, in ticks of which a second has 96,000. All times below are whole
/// numbers of them.
#[derive(Clone, Copy, Debug, Default, PartialEq, Eq, PartialOrd, Ord)]
pub struct Time(u64);

const TICKS: u64 = 96_000;

/// The disk turns 3600 times a minute.
pub const REVOLUTION: Time = Time(TICKS / 60);

/// A track has 16 sectors, and one passes the head in this time.
const TRACK: u32 = 16;
const SECTOR: Time = Time(REVOLUTION.0 / TRACK as u64);

/// A cylinder has four tracks, one for each head.
const CYLINDER: u32 = 4 * TRACK;
const INNERMOST: u32 = SECTORS / CYLINDER - 1;

/// Sector n of a track lies at the place 5n, counted around the track.
const INTERLEAVE: u32 = 5;

/// What the host and the controller need before the accesses of a command, from the end
/// of the one before. A read then keeps up with the interleave, and a write misses it.
pub const READ_HANDSHAKES: Time = Time(3 * SECTOR.0);
pub const WRITE_HANDSHAKES: Time = Time(5 * SECTOR.0);

/// The stepper's way from one cylinder to the next.
const STEP: Time = microseconds(1_500);

/// Another cylinder: the stepper settles, then three headers of every second sector are
/// read. Another head of the same cylinder: a short wait.
const SETTLE: Time = microseconds(24_000);
const HEADERS: Time = Time(6 * SECTOR.0);
const OTHER_HEAD: Time = microseconds(750);

/// The wait before the first write after a change of the cylinder.
const FIRST_WRITE: Time = microseconds(30_000);

/// A sector that is not found is sought for nine revolutions.
const TIMEOUT: Time = Time(9 * REVOLUTION.0);

/// Heads that do not settle: three seeks, each with 64 tries to find a header, and the
/// ways to the innermost cylinder, the outermost one and back.
const SEEKS: u64 = 3;
const TRIES: u64 = 64;
const NO_HEADER: Time = microseconds(26_000);

/// So many millionths of a second.
const fn microseconds(count: u64) -> Time {
    Time(count * TICKS / 1_000_000)
}

impl Time {
    pub const ZERO: Time = Time(0);

    /// Returns the seconds in thousandths, rounded.
    pub fn milliseconds(self) -> u64 {
        (self.0 * 1000 + TICKS / 2) / TICKS
    }

    /// Says it behind other words: ", about 3.6 s", or nothing if it is none.
    pub fn about(self) -> String {
        match self {
            Time::ZERO => String::new(),
            time => format!(", about {time}"),
        }
    }

    /// Returns a mean of so many times, of which this is the sum; 0 of none.
    pub fn mean_of(self, count: u64) -> Time {
        Time((self.0 + count / 2).checked_div(count).unwrap_or(0))
    }
}

impl Add for Time {
    type Output = Time;

    fn add(self, other: Time) -> Time {
        Time(self.0 + other.0)
    }
}

impl AddAssign for Time {
    fn add_assign(&mut self, other: Time) {
        self.0 += other.0;
    }
}

impl Sub for Time {
    type Output = Time;

    fn sub(self, other: Time) -> Time {
        Time(self.0 - other.0)
    }
}

impl Mul<u64> for Time {
    type Output = Time;

    fn mul(self, times: u64) -> Time {
        Time(self.0 * times)
    }
}

impl Sum for Time {
    fn sum<I: Iterator<Item = Time>>(times: I) -> Time {
        times.fold(Time::ZERO, Add::add)
    }
}

/// Writes seconds with no more digits than an estimate deserves: "0.005 s", "3.6 s",
/// "5360 s".
impl fmt::Display for Time {
    fn fmt(&self, to: &mut fmt::Formatter) -> fmt::Result {
        let thousandths = self.milliseconds();
        let tenths = (thousandths + 50) / 100;
        let seconds = (thousandths + 500) / 1000;
        match thousandths {
            0..1_000 => write!(to, "0.{thousandths:03} s"),
            1_000..99_950 => write!(to, "{}.{} s", tenths / 10, tenths % 10),
            _ => write!(to, "{seconds} s"),
        }
    }
}

/// The time of a run, and where the heads are. The disk turns with the time.
#[derive(Clone, Debug)]
pub struct Clock {
    now: Time,
    cylinder: u32,
    head: u32,
    /// The heads are settled on their cylinder.
    settled: bool,
    /// A write was tried since they came there.
    written: bool,
}

impl Clock {
    pub fn new() -> Clock {
        Clock {
            now: Time::ZERO,
            cylinder: INNERMOST,
            head: 0,
            settled: false,
            written: false,
        }
    }

    /// Returns the time since the run began.
    pub fn now(&self) -> Time {
        self.now
    }

    /// Parks the heads, as a start finds them. It takes no time.
    pub fn park(&mut self) {
        let now = self.now;
        *self = Clock {
            now,
            ..Clock::new()
        };
    }

    /// Lets so much time pass.
    pub fn pass(&mut self, time: Time) {
        self.now += time;
    }

    /// Lets the time of an access pass that was answered so.
    pub fn access(&mut self, reads: bool, sector: Sector, answer: u8) {
        let number = sector.number();
        let (cylinder, head) = (number / CYLINDER, number / TRACK % 4);
        if answer == surface::NO_SETTLE {
            return self.not_settled(cylinder);
        }
        self.seek(cylinder, head);
        if !reads && !self.written {
            self.written = true;
            self.now += FIRST_WRITE;
        }
        match answer {
            surface::TIMEOUT => self.now += TIMEOUT,
            _ => self.now += self.until(number % TRACK) + SECTOR,
        }
    }

    /// Moves the heads, and waits until they can read there.
    fn seek(&mut self, cylinder: u32, head: u32) {
        if cylinder != self.cylinder || !self.settled {
            self.now += self.way(cylinder) + SETTLE + HEADERS;
            self.written = false;
        } else if head != self.head {
            self.now += OTHER_HEAD;
        }
        (self.cylinder, self.head, self.settled) = (cylinder, head, true);
    }

    /// Lets the time of a seek pass that fails. The heads stay unsettled.
    fn not_settled(&mut self, cylinder: u32) {
        let seek = SETTLE + NO_HEADER * TRIES;
        let there_and_back = STEP * u64::from(2 * INNERMOST);
        self.now += self.way(cylinder) + seek * SEEKS + there_and_back;
        (self.cylinder, self.settled) = (cylinder, false);
    }

    /// Returns how long the stepper takes to a cylinder.
    fn way(&self, cylinder: u32) -> Time {
        STEP * u64::from(cylinder.abs_diff(self.cylinder))
    }

    /// Returns how long it takes until this sector of the track comes to the head.
    fn until(&self, sector: u32) -> Time {
        let place = SECTOR * u64::from(sector * INTERLEAVE % TRACK);
        let passing = Time(self.now.0 % REVOLUTION.0);
        Time((place + REVOLUTION - passing).0 % REVOLUTION.0)
    }
}

impl Default for Clock {
    fn default() -> Clock {
        Clock::new()
    }
}

#[cfg(test)]
mod tests {
    use super::*;
    use crate::board::Board;
    use crate::host::{Host, USUAL};
    use crate::platter::Platter;

    fn sector(number: u32) -> Sector {
        Sector::new(number).expect("a sector")
    }

    /// A clock whose heads have just read a sector.
    fn at(number: u32) -> Clock {
        let mut clock = Clock::new();
        clock.access(true, sector(number), surface::GOOD);
        clock
    }

    /// How long an access takes after a read of sector 17.
    fn takes(reads: bool, number: u32, answer: u8) -> Time {
        let mut clock = at(17);
        let before = clock.now();
        clock.access(reads, sector(number), answer);
        clock.now() - before
    }

    /// How many sectors pass from one command to the next, for sequential blocks of a
    /// track whose command has these accesses.
    fn apart(handshakes: Time, reads: &[bool]) -> u64 {
        let mut clock = Clock::new();
        let ends: Vec<Time> = (0..16)
            .map(|number| {
                clock.pass(handshakes);
                for &reads in reads {
                    clock.access(reads, sector(number), surface::GOOD);
                }
                clock.now()
            })
            .collect();
        let apart = ends[2] - ends[1];
        assert!(ends.windows(2).skip(1).all(|two| two[1] - two[0] == apart));
        apart.0 / SECTOR.0
    }

    #[test]
    fn the_interleaves_of_document_000() {
        assert_eq!(apart(READ_HANDSHAKES, &[true]), 5);
        assert_eq!(apart(WRITE_HANDSHAKES, &[false]), 21);
        assert_eq!(apart(WRITE_HANDSHAKES, &[false, true]), 37);
    }

    #[test]
    fn all_blocks_are_read_in_the_time_of_document_000() {
        let mut host = Host::new(Board::new(Platter::blank()));
        host.start();
        let before = host.board.clock().now();
        for number in 0..9728 {
            assert!(host.read(number, USUAL).good());
        }
        let took = host.board.clock().now() - before;
        // Document 000: about 55 seconds.
        assert!((54_500..56_500).contains(&took.milliseconds()), "{took}");
    }

    #[test]
    fn a_reread_takes_a_revolution_and_a_timeout_nine() {
        assert_eq!(takes(true, 17, surface::GOOD), REVOLUTION);
        assert_eq!(takes(true, 17, surface::CRC), REVOLUTION);
        assert_eq!(takes(true, 17, surface::TIMEOUT), REVOLUTION * 9);
        let hundred = (0..100).fold(at(17), |mut clock, _| {
            clock.access(true, sector(17), surface::GOOD);
            clock
        });
        assert_eq!(hundred.now() - at(17).now(), REVOLUTION * 100);
    }

    #[test]
    fn heads_and_cylinders() {
        // Sector 17 ends at place 6; sector 18 is at place 10, and so is sector 34.
        assert_eq!(takes(true, 18, surface::GOOD), SECTOR * 5);
        assert_eq!(takes(true, 34, surface::GOOD), SECTOR * 5);
        let other_head = OTHER_HEAD + TIMEOUT;
        assert_eq!(takes(true, 34, surface::TIMEOUT), other_head);
        let seek = |cylinders| STEP * cylinders + SETTLE + HEADERS;
        assert_eq!(takes(true, 64, surface::TIMEOUT), seek(1) + TIMEOUT);
        assert_eq!(takes(true, 4960, surface::TIMEOUT), seek(77) + TIMEOUT);
        assert_eq!(
            takes(false, 4960, surface::TIMEOUT),
            seek(77) + FIRST_WRITE + TIMEOUT
        );
    }

    #[test]
    fn the_first_write_on_a_cylinder_waits() {
        let mut clock = at(17);
        let mut takes = |reads, number| {
            let before = clock.now();
            clock.access(reads, sector(number), surface::TIMEOUT);
            clock.now() - before - TIMEOUT
        };
        assert_eq!(takes(true, 17), Time::ZERO);
        assert_eq!(takes(false, 17), FIRST_WRITE);
        assert_eq!(takes(false, 17), Time::ZERO);
        let seek = STEP + SETTLE + HEADERS;
        assert_eq!(takes(true, 64), seek);
        assert_eq!(takes(true, 17), seek);
        assert_eq!(takes(false, 18), FIRST_WRITE);
    }

    #[test]
    fn heads_that_do_not_settle() {
        let took = takes(true, 17, surface::NO_SETTLE);
        assert_eq!(took.milliseconds(), 3 * (24 + 64 * 26) + 2 * 152 * 3 / 2);
        let mut clock = at(17);
        clock.access(true, sector(17), surface::NO_SETTLE);
        let before = clock.now();
        clock.access(true, sector(17), surface::TIMEOUT);
        assert_eq!(clock.now() - before, SETTLE + HEADERS + TIMEOUT);
    }

    #[test]
    fn a_start_finds_the_heads_parked() {
        let mut clock = at(17);
        let before = clock.now();
        clock.park();
        assert_eq!(clock.now(), before);
        clock.access(true, sector(4960), surface::TIMEOUT);
        let seek = STEP * (152 - 77) + SETTLE + HEADERS;
        assert_eq!(clock.now() - before, seek + TIMEOUT);
    }

    #[test]
    fn seconds_in_words() {
        let words = |milliseconds: u64| microseconds(milliseconds * 1000).to_string();
        assert_eq!(words(0), "0.000 s");
        assert_eq!(words(5), "0.005 s");
        assert_eq!(words(999), "0.999 s");
        assert_eq!(words(1_000), "1.0 s");
        assert_eq!(words(3_649), "3.6 s");
        assert_eq!(words(99_949), "99.9 s");
        assert_eq!(words(99_950), "100 s");
        assert_eq!(words(5_360_499), "5360 s");
        assert_eq!(Time(TICKS - 1).to_string(), "1.0 s");
        assert_eq!(Time(47).to_string(), "0.000 s");
        assert_eq!(Time(48).to_string(), "0.001 s");
    }

    #[test]
    fn means() {
        assert_eq!(Time(10).mean_of(4), Time(3));
        assert_eq!(Time(0).mean_of(0), Time::ZERO);
    }
}
