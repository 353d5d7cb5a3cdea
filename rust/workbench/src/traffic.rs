//! Random commands of a host, from a seed.

use reference::rng::Rng;
use reference::surface::plain_bytes;

use crate::data::Blocks;
use crate::host::{Host, Report, Retry};
use crate::plan::Traffic;

/// A source of commands.
#[derive(Debug)]
pub struct Source {
    rng: Rng,
    blocks: Blocks,
}

/// One command.
#[derive(Clone, Debug, PartialEq, Eq)]
pub enum Command {
    Read(u32, Retry),
    Write(u32, Vec<u8>),
    WriteVerify(u32, Vec<u8>),
}

impl Source {
    pub fn new(traffic: Traffic) -> Source {
        Source {
            rng: Rng::new(traffic.seed.into()),
            blocks: traffic.blocks,
        }
    }

    /// The next command: of four two are reads, one is a write and one a write/verify.
    pub fn command(&mut self) -> Command {
        let blocks = u32::try_from(self.blocks.count()).expect("blocks are few");
        let number = self.blocks.first + self.rng.below(blocks);
        match self.rng.below(4) {
            0 => Command::Write(number, plain_bytes(&mut self.rng)),
            1 => Command::WriteVerify(number, plain_bytes(&mut self.rng)),
            _ => Command::Read(number, self.retry()),
        }
    }

    /// Up to ten retries, and a threshold up to three.
    fn retry(&mut self) -> Retry {
        Retry {
            retries: self.rng.below(11) as u8,
            threshold: self.rng.below(4) as u8,
        }
    }
}

impl Command {
    /// As a plan has it.
    pub fn name(&self) -> String {
        match self {
            Command::Read(number, retry) => {
                format!("read {number} {} {}", retry.retries, retry.threshold)
            }
            Command::Write(number, _) => format!("write {number}"),
            Command::WriteVerify(number, _) => format!("write-verify {number}"),
        }
    }

    /// Does it.
    pub fn make(&self, host: &mut Host) -> Report {
        match self {
            Command::Read(number, retry) => host.read(*number, *retry),
            Command::Write(number, data) => host.write(*number, false, data),
            Command::WriteVerify(number, data) => host.write(*number, true, data),
        }
    }
}

#[cfg(test)]
mod tests {
    use super::*;

    #[test]
    fn the_same_seed_gives_the_same_commands_in_range() {
        let traffic = Traffic {
            commands: 0,
            seed: 3,
            blocks: Blocks { first: 5, last: 7 },
        };
        let commands = || -> Vec<Command> {
            let mut source = Source::new(traffic);
            (0..400).map(|_| source.command()).collect()
        };
        let all = commands();
        assert_eq!(all, commands());
        let reads = all.iter().filter(|c| matches!(c, Command::Read(..)));
        assert!((150..250).contains(&reads.count()));
        let written = |number| {
            let name = format!("write {number}");
            all.iter().any(|command| command.name() == name)
        };
        assert_eq!(
            [4, 5, 6, 7, 8].map(written),
            [false, true, true, true, false]
        );
    }
}
