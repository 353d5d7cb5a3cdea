//! The stored call scripts through the C library: its transcripts are the stored
//! ones.

use std::path::Path;
use std::{env, fs};

use controller::{convert, Answer, Drive, BUFFER, SECTOR_BYTES};
use reference::drive::Call;
use reference::script::{adler32, parse, Line};

/// A drive as a script has it.
struct Player {
    drive: Drive,
    buffer: Vec<u8>,
}

impl Player {
    /// Makes the call of a line and says what a transcript says of it.
    fn play(&mut self, line: &Line) -> String {
        match &line.call {
            Call::Image => self.image(line.lend.unwrap_or(SECTOR_BYTES)),
            Call::Convert(from) => {
                let mut to = vec![0xEE; line.lend.unwrap_or(SECTOR_BYTES)];
                let answer = convert(from, &mut to);
                format!("{} image {:08x}", word(answer), adler32(&to))
            }
            _ => self.lend(line),
        }
    }

    /// Makes an image call that is lent so many bytes.
    fn image(&self, length: usize) -> String {
        let mut image = vec![0xEE; SECTOR_BYTES];
        let mut lent = image.clone();
        lent.resize(length, 0);
        let answer = self.drive.image(&mut lent);
        if lent.len() == SECTOR_BYTES {
            image = lent;
        }
        format!("{} image {:08x}", word(answer), adler32(&image))
    }

    /// Makes a call on the buffer.
    fn lend(&mut self, line: &Line) -> String {
        let mut lent = self.buffer.clone();
        lent.resize(line.lend.unwrap_or(BUFFER), 0);
        let drive = &mut self.drive;
        let answer = match &line.call {
            Call::Start => drive.start(&mut lent),
            Call::Raise => drive.raise(&mut lent),
            Call::Lower(byte) => drive.lower(&mut lent, *byte),
            Call::Feed(bytes) => drive.feed(&mut lent, bytes),
            Call::Surface(answer, bytes) => drive.surface(&mut lent, *answer, bytes),
            Call::Reset => drive.reset(&mut lent),
            Call::Image | Call::Convert(_) => unreachable!("it is lent other bytes"),
        };
        if lent.len() == BUFFER {
            self.buffer = lent;
        }
        let status: String = self.buffer[..4]
            .iter()
            .map(|byte| format!("{byte:02x}"))
            .collect();
        let data = adler32(&self.buffer[4..]);
        format!("{} status {status} data {data:08x}", word(answer))
    }
}

fn word(answer: Answer) -> String {
    match answer {
        Answer::Wait => String::from("wait"),
        Answer::Offer(offer) => format!("offer {:02x}", offer.byte()),
        Answer::Read(sector) => format!("read {}", sector.number()),
        Answer::Write(sector) => format!("write {}", sector.number()),
        Answer::Store => String::from("store"),
        Answer::Finished => String::from("finished"),
        Answer::Refused(code) => format!("refused {}", code.number()),
    }
}

/// The transcript of a script; one with a fault in it has an error at its end.
fn transcript(script: &[u8]) -> String {
    let mut player = Player {
        drive: Drive::new(),
        buffer: vec![0; BUFFER],
    };
    let mut text = String::new();
    for (number, line) in reference::text::lines(script) {
        match parse(line) {
            Ok(line) => text += &format!("{}\n", player.play(&line)),
            Err(fault) => return text + &format!("error: line {number}: {fault}\n"),
        }
    }
    text
}

#[test]
fn stored_scripts() {
    let package = env::var_os("CARGO_MANIFEST_DIR").expect("cargo sets it");
    let folder = Path::new(&package).join("../../tests/scripts");
    let mut count = 0;
    for entry in fs::read_dir(&folder).expect("the stored scripts") {
        let path = entry.expect("a file").path();
        if path.extension().is_some_and(|end| end == "script") {
            let script = fs::read(&path).expect("a script");
            let expected =
                fs::read_to_string(path.with_extension("expected")).expect("a transcript");
            assert_eq!(transcript(&script), expected, "{}", path.display());
            count += 1;
        }
    }
    assert_eq!(count, reference::scripts::all().len(), "stored scripts");
}
