//! The history: the ledger, which runs along from the first start to the end of the run.
//! Each further start is one of its calls (document 02, request 7).

use controller::{Answer, Code, Offer};
use reference::controller as ledgers;
use reference::drive::Call;
use reference::geometry::Sector;
use reference::ledger::{Broken, Ledger};
use reference::surface::Sectors;

/// The history of a run.
#[derive(Clone, Debug, Default)]
pub struct History {
    ledger: Option<Ledger>,
    starts: u32,
    broken: Option<(u32, Broken)>,
}

impl History {
    /// A start was accepted, with these sectors. The first begins the list; each further
    /// one is a call of it, with its answer and the buffer it left.
    pub fn start(&mut self, sectors: &Sectors, answer: Answer, buffer: &[u8]) {
        self.starts += 1;
        match self.ledger {
            None => self.ledger = Some(Ledger::new(sectors)),
            Some(_) => self.call(&Call::Start, answer, buffer),
        }
    }

    /// The next call of the list, with its answer and the buffer it left.
    pub fn call(&mut self, call: &Call, answer: Answer, buffer: &[u8]) {
        let Some(ledger) = &mut self.ledger else {
            return;
        };
        ledger.call(call, told(answer), buffer);
        if let Err(broken) = ledger.verdict() {
            self.broken.get_or_insert((self.starts, broken));
        }
    }

    /// Whether the list is allowed.
    pub fn allowed(&self) -> bool {
        self.broken.is_none()
    }

    /// How many starts there were.
    pub fn starts(&self) -> u32 {
        self.starts
    }

    /// The verdict in words.
    pub fn verdict(&self) -> String {
        match self.broken {
            None => String::from("allowed"),
            Some((start, broken)) => format!("broken, after start {start}: {broken}"),
        }
    }
}

/// The controller's answer in the ledger's words.
fn told(answer: Answer) -> ledgers::Answer {
    let sector = |sector: controller::Sector| {
        Sector::new(sector.number()).expect("the controller asks for sectors alone")
    };
    match answer {
        Answer::Wait => ledgers::Answer::Wait,
        Answer::Offer(offer) => ledgers::Answer::Offer(match offer {
            Offer::Command => ledgers::Offer::Command,
            Offer::Read => ledgers::Offer::Read,
            Offer::Write => ledgers::Offer::Write,
            Offer::Verify => ledgers::Offer::Verify,
            Offer::Act => ledgers::Offer::Act,
        }),
        Answer::Read(at) => ledgers::Answer::Read(sector(at)),
        Answer::Write(at) => ledgers::Answer::Write(sector(at)),
        Answer::Store => ledgers::Answer::Store,
        Answer::Finished => ledgers::Answer::Finished,
        Answer::Refused(code) => ledgers::Answer::Refused(match code {
            Code::Record => ledgers::Code::Record,
            Code::Buffer => ledgers::Code::Buffer,
            Code::Place => ledgers::Code::Place,
            Code::Answer => ledgers::Code::Answer,
            Code::Bytes => ledgers::Code::Bytes,
            Code::Form => ledgers::Code::Form,
            Code::Sum => ledgers::Code::Sum,
            Code::Field => ledgers::Code::Field,
        }),
    }
}
