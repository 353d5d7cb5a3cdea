//! What the lines and the jobs of a run would have taken on the drive. A job is what
//! stands between two headings of a plan: the lines from one `say` to the next.

use crate::clock::Time;
use crate::show;

/// A job shows so many lines at most, and a summary so many jobs: those that took longest.
const MOST_LINES: usize = 6;
const MOST_JOBS: usize = 24;

/// The name of a job or of a line has so many letters at most.
const NAME: usize = 40;

/// What a run took: its jobs, and the command that took longest, the first of those that
/// took as long.
#[derive(Clone, Debug, Default)]
pub struct Times {
    jobs: Vec<Job>,
    /// The name of the line that is being done, until its first command.
    line: Option<String>,
    longest: (String, Time),
}

/// A job, and those of its lines that took some time.
#[derive(Clone, Debug, Default)]
struct Job {
    name: Option<String>,
    lines: Vec<Spent>,
}

/// What the commands of a line took: the shortest, the longest and all together.
#[derive(Clone, Debug)]
struct Spent {
    name: String,
    several: bool,
    shortest: Time,
    longest: Time,
    took: Time,
}

impl Times {
    /// Begins a job with this heading.
    pub fn job(&mut self, heading: &str) {
        self.jobs.push(Job {
            name: Some(job_name(heading)),
            lines: vec![],
        });
    }

    /// Begins a line with this text.
    pub fn line(&mut self, text: &str) {
        let words: Vec<&str> = text.split_whitespace().take(2).collect();
        self.line = Some(show::shorten(&words.join(" "), NAME));
    }

    /// Counts a command of the line.
    pub fn hold(&mut self, command: &str, took: Time) {
        if took == Time::ZERO {
            return;
        }
        if took > self.longest.1 {
            self.longest = (command.to_string(), took);
        }
        if self.jobs.is_empty() {
            self.jobs.push(Job::default());
        }
        let lines = &mut self.jobs.last_mut().expect("a job").lines;
        match (self.line.take(), lines.last_mut()) {
            (None, Some(line)) => line.add(took),
            (name, _) => lines.push(Spent::new(name.unwrap_or_default(), took)),
        }
    }

    /// Returns the lines of a summary: all of the run and its longest command, then a line
    /// for each job; none if nothing took time.
    pub fn told(&self) -> Vec<String> {
        let all: Time = self.jobs.iter().map(Job::took).sum();
        if all == Time::ZERO {
            return vec![];
        }
        let (name, took) = &self.longest;
        let mut lines = vec![format!(
            "about {all} on the drive, the longest {took}: {name}"
        )];
        let (jobs, left_out) = longest(&self.jobs, MOST_JOBS, Job::took);
        let jobs = jobs.into_iter().map(Job::told);
        let jobs = jobs.chain(more(&left_out, "job", "jobs"));
        lines.extend(jobs.map(|words| format!("  {words}")));
        lines
    }
}

impl Job {
    fn took(&self) -> Time {
        self.lines.iter().map(|line| line.took).sum()
    }

    /// Says "Monday, 1.4 s: start 0.151 s, write 0..39 1.0 s (each 0.006 s to 0.061 s)".
    fn told(&self) -> String {
        let (lines, left_out) = longest(&self.lines, MOST_LINES, |line| line.took);
        let mut words: Vec<String> = match (&self.name, &lines[..]) {
            (Some(_), [one]) => vec![format!("{}{}", one.name, one.each())],
            _ => lines.into_iter().map(Spent::told).collect(),
        };
        words.extend(more(&left_out, "line", "lines"));
        let words = words.join(", ");
        match &self.name {
            Some(name) => format!("{name}, {}: {words}", self.took()),
            None => words,
        }
    }
}

impl Spent {
    fn new(name: String, took: Time) -> Spent {
        Spent {
            name,
            several: false,
            shortest: took,
            longest: took,
            took,
        }
    }

    fn add(&mut self, took: Time) {
        self.several = true;
        self.shortest = self.shortest.min(took);
        self.longest = self.longest.max(took);
        self.took += took;
    }

    fn told(&self) -> String {
        format!("{} {}{}", self.name, self.took, self.each())
    }

    /// Says what each of several commands took: " (each 0.006 s to 0.061 s)".
    fn each(&self) -> String {
        let (shortest, longest) = (self.shortest.to_string(), self.longest.to_string());
        match self.several {
            false => String::new(),
            true if shortest == longest => format!(" (each {longest})"),
            true => format!(" (each {shortest} to {longest})"),
        }
    }
}

/// Returns the name of a job: what stands before the colon of its heading, of that the first
/// sentence.
fn job_name(heading: &str) -> String {
    let (name, _) = show::heading(heading);
    let (name, _) = name.split_once(". ").unwrap_or((name, ""));
    show::shorten(name.trim_end_matches(['.', ':']), NAME)
}

/// Returns those that took longest, so many at most, in their order, and the times of the
/// others. What took no time is left out.
fn longest<T>(all: &[T], most: usize, took: impl Fn(&T) -> Time) -> (Vec<&T>, Vec<Time>) {
    let mut order: Vec<usize> = (0..all.len()).collect();
    order.retain(|&place| took(&all[place]) > Time::ZERO);
    order.sort_by_key(|&place| std::cmp::Reverse(took(&all[place])));
    let left_out = order.split_off(most.min(order.len()));
    order.sort_unstable();
    let times = left_out.into_iter().map(|place| took(&all[place]));
    let times = times.collect();
    (order.into_iter().map(|place| &all[place]).collect(), times)
}

/// Says how many are not shown, and what they took: "3 more lines 0.2 s".
fn more(times: &[Time], one: &str, several: &str) -> Option<String> {
    let noun = if times.len() == 1 { one } else { several };
    let took: Time = times.iter().copied().sum();
    (!times.is_empty()).then(|| format!("{} more {noun} {took}", times.len()))
}

#[cfg(test)]
mod tests {
    use super::*;
    use crate::clock::REVOLUTION;

    /// Tells a run of these lines, each with the revolutions of its commands.
    fn told(lines: &[(&str, &[u64])]) -> Vec<String> {
        let mut times = Times::default();
        for (text, commands) in lines {
            match text.strip_prefix("say ") {
                Some(heading) => times.job(heading),
                None => times.line(text),
            }
            for &count in *commands {
                times.hold(text, REVOLUTION * count);
            }
        }
        times.told()
    }

    #[test]
    fn a_line_for_each_job() {
        let lines = told(&[
            ("start", &[6]),
            ("say Monday: it is written", &[]),
            ("write 0..2 \"layout\"", &[3, 6, 3]),
            ("read 0..1 to back.dat", &[6, 6]),
            ("raise", &[0]),
            ("say Tuesday: nothing", &[]),
            ("raise", &[0]),
            ("say It is read. The week ends.", &[]),
            ("read 17 10 3", &[60]),
            ("say Twice", &[]),
            ("read 1..2", &[30, 60]),
        ]);
        assert_eq!(
            lines,
            [
                "about 3.0 s on the drive, the longest 1.0 s: read 17 10 3",
                "  start 0.100 s",
                "  Monday, 0.400 s: write 0..2 0.200 s (each 0.050 s to 0.100 s), read 0..1 0.200 s (each 0.100 s)",
                "  It is read, 1.0 s: read 17",
                "  Twice, 1.5 s: read 1..2 (each 0.500 s to 1.0 s)",
            ]
        );
    }

    #[test]
    fn nothing_took_time() {
        assert_eq!(told(&[("raise", &[0])]), [""; 0]);
        assert_eq!(told(&[]), [""; 0]);
    }

    #[test]
    fn the_longest_lines_of_a_job_in_their_order() {
        let lines = told(&[
            ("a", &[6]),
            ("b", &[12]),
            ("c", &[18]),
            ("d", &[6]),
            ("e", &[12]),
            ("f", &[18]),
            ("g", &[12]),
            ("h", &[6]),
        ]);
        let words = "  a 0.100 s, b 0.200 s, c 0.300 s, e 0.200 s, f 0.300 s, g 0.200 s,";
        assert_eq!(lines[1], format!("{words} 2 more lines 0.200 s"));
    }

    #[test]
    fn the_longest_jobs_in_their_order() {
        let headings: Vec<String> = (1..=25).map(|day| format!("say {day}: a day")).collect();
        let days = headings.iter().zip(1..);
        let mut lines: Vec<(&str, &[u64])> = vec![];
        for (heading, day) in days {
            lines.push((heading, &[]));
            lines.push(("read 1", if day == 7 { &[3] } else { &[6] }));
        }
        let lines = told(&lines);
        assert_eq!(lines.len(), 1 + 24 + 1);
        assert_eq!(lines[7], "  8, 0.100 s: read 1");
        assert_eq!(lines[25], "  1 more job 0.050 s");
    }

    #[test]
    fn long_names() {
        let lines = told(&[
            (&format!("say {}", "long ".repeat(20)), &[]),
            ("read 1", &[6]),
        ]);
        let name = "long ".repeat(8);
        assert_eq!(lines[1], format!("  {}…, 0.100 s: read 1", &name[..39]));
    }
}
