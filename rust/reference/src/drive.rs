//! The record and the buffer of a drive, handed on from call to call, and the
//! calls as data.

use crate::controller::{convert, Answer, Record, BUFFER, STATUS};
use crate::image;

/// One of the eight calls with its arguments.
#[derive(Clone, Debug, PartialEq, Eq)]
pub enum Call {
    Start,
    Raise,
    Lower(u8),
    Feed(Vec<u8>),
    Surface(u8, Vec<u8>),
    Reset,
    Image,
    /// The bytes are the first lent buffer.
    Convert(Vec<u8>),
}

impl Call {
    /// Says whether it may change the record or the buffer of the drive.
    pub fn may_change(&self) -> bool {
        !matches!(self, Call::Image | Call::Convert(_))
    }
}

/// What an image call is lent, and what the second lent buffer of a convert holds.
const LENT: u8 = 0xEE;

/// A drive.
#[derive(Clone, Debug, PartialEq, Eq)]
pub struct Drive {
    pub record: Record,
    pub buffer: Vec<u8>,
}

/// What a call returned.
#[derive(Clone, Debug, PartialEq, Eq)]
pub struct Returned {
    pub answer: Answer,
    /// The 532 lent bytes of an image call, or the second lent buffer of a convert,
    /// as the call left them.
    pub image: Option<Vec<u8>>,
}

impl Default for Drive {
    fn default() -> Drive {
        Drive::new()
    }
}

impl Drive {
    /// A drive that was never started, its buffer zero.
    pub fn new() -> Drive {
        Drive {
            record: Record::new(),
            buffer: vec![0; BUFFER],
        }
    }

    /// The four status bytes.
    pub fn status(&self) -> &[u8] {
        &self.buffer[..STATUS]
    }

    /// The data part.
    pub fn data(&self) -> &[u8] {
        &self.buffer[STATUS..]
    }

    /// Makes a call.
    pub fn call(&mut self, call: &Call) -> Returned {
        self.lend(None, call)
    }

    /// Makes a call that is lent this many bytes.
    pub fn lend(&mut self, length: Option<usize>, call: &Call) -> Returned {
        match call {
            Call::Image => return self.lend_image(length),
            Call::Convert(bytes) => return lend_convert(length, bytes),
            _ => {}
        }
        let Some(length) = length else {
            let answer = make(&mut self.record, &mut self.buffer, call);
            return Returned {
                answer,
                image: None,
            };
        };
        let mut lent = self.buffer.clone();
        lent.resize(length, 0);
        let answer = make(&mut self.record, &mut lent, call);
        if length == BUFFER {
            self.buffer = lent;
        }
        Returned {
            answer,
            image: None,
        }
    }

    fn lend_image(&self, length: Option<usize>) -> Returned {
        let mut image = vec![LENT; image::LENGTH];
        let length = length.unwrap_or(image.len());
        let mut lent = image.clone();
        lent.resize(length, 0);
        let answer = self.record.image(&mut lent);
        if length == image.len() {
            image = lent;
        }
        Returned {
            answer,
            image: Some(image),
        }
    }
}

/// Makes a convert whose second buffer has this many bytes.
fn lend_convert(length: Option<usize>, image: &[u8]) -> Returned {
    let mut into = vec![LENT; length.unwrap_or(image::LENGTH)];
    let answer = convert(image, &mut into);
    Returned {
        answer,
        image: Some(into),
    }
}

/// Makes a call on the buffer.
fn make(record: &mut Record, buffer: &mut [u8], call: &Call) -> Answer {
    match call {
        Call::Start => record.start(buffer),
        Call::Raise => record.raise(buffer),
        Call::Lower(byte) => record.lower(buffer, *byte),
        Call::Feed(bytes) => record.feed(buffer, bytes),
        Call::Surface(answer, bytes) => record.surface(buffer, *answer, bytes),
        Call::Reset => record.reset(buffer),
        Call::Image | Call::Convert(_) => unreachable!("it is lent other bytes"),
    }
}

#[cfg(test)]
mod tests {
    use super::*;
    use crate::controller::Code;
    use crate::geometry::TABLE;
    use crate::images::draft::Draft;

    fn answer(drive: &mut Drive, call: Call) -> Answer {
        drive.call(&call).answer
    }

    #[test]
    fn lengths_lent() {
        let mut drive = Drive::new();
        drive.buffer[4] = 7;
        for length in [0, 4, 532, 535, 537, 600] {
            let before = drive.clone();
            let returned = drive.lend(Some(length), &Call::Start);
            assert_eq!(returned.answer, Answer::Refused(Code::Buffer));
            assert_eq!(drive, before);
        }
        let returned = drive.lend(Some(536), &Call::Start);
        assert_eq!(returned.answer, Answer::Read(TABLE));
        assert_eq!(drive.buffer, vec![0; 536]);
    }

    #[test]
    fn lengths_lent_to_image() {
        let mut drive = Drive::new();
        answer(&mut drive, Call::Start);
        let image = Draft::small().bytes();
        let read = Call::Surface(0, image.clone());
        assert_eq!(answer(&mut drive, read), Answer::Wait);
        for length in [0, 531, 533, 536, 600] {
            let returned = drive.lend(Some(length), &Call::Image);
            assert_eq!(returned.answer, Answer::Refused(Code::Buffer));
            assert_eq!(returned.image, Some(vec![0xEE; 532]));
        }
        // The image that was read is of form A, and the one that is given of form B.
        let of_b = drive.call(&Call::Convert(image)).image;
        for length in [None, Some(532)] {
            let returned = drive.lend(length, &Call::Image);
            assert_eq!(returned.answer, Answer::Wait);
            assert_eq!(returned.image, of_b);
        }
    }

    #[test]
    fn lengths_lent_to_convert() {
        let mut drive = Drive::new();
        let before = drive.clone();
        let image = Draft::small().bytes();
        let refused = Answer::Refused(Code::Buffer);
        for length in [0, 531, 533, 600] {
            let returned = drive.lend(Some(length), &Call::Convert(image.clone()));
            assert_eq!(returned.answer, refused);
            assert_eq!(returned.image, Some(vec![0xEE; length]));
        }
        for length in [0, 4, 531, 533] {
            let returned = drive.call(&Call::Convert(vec![0xF0; length]));
            assert_eq!(returned.answer, refused);
            assert_eq!(returned.image, Some(vec![0xEE; 532]));
        }
        let there = drive.lend(Some(532), &Call::Convert(image.clone()));
        assert_eq!(there.answer, Answer::Wait);
        let back = drive.call(&Call::Convert(there.image.expect("an image")));
        assert_eq!(back.image, Some(image));
        assert_eq!(drive, before);
    }
}
