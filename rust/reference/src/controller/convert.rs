//! The call without a record: an image of either form is turned into the other
//! (document 02, request 6).

use super::{Answer, Code};
use crate::coverage::met;
use crate::image::{self, form_a, Fault, Form, LENGTH};

/// Turns the image in the first lent buffer into the other form, in the second one.
/// Form B made from form A has run number 0 and causes 0. A refusal leaves both.
pub fn convert(image: &[u8], into: &mut [u8]) -> Answer {
    match converted(image, into) {
        Ok(bytes) => {
            into.copy_from_slice(&bytes);
            Answer::Wait
        }
        Err(code) => Answer::Refused(code),
    }
}

/// Writes the image in the other form, if nothing is refused.
fn converted(image: &[u8], into: &[u8]) -> Result<[u8; LENGTH], Code> {
    let right = (image.len() == LENGTH, into.len() == LENGTH);
    if right != (true, true) {
        met(match right {
            (false, true) => "refused.2.convert.first",
            (true, false) => "refused.2.convert.second",
            _ => "refused.2.convert.both",
        });
        return Err(Code::Buffer);
    }
    let found = image::read(image);
    met(&match &found {
        Ok((Form::A, _)) => String::from("convert.a-to-b"),
        Ok((Form::B, _)) => String::from("convert.b-to-a"),
        Err(Fault::Form) => String::from(neither_name(image)),
        Err(Fault::Sum) => String::from("refused.7.convert"),
        Err(Fault::Field(clause)) => format!("refused.8.convert.{}", clause.name()),
    });
    let (form, table) = found?;
    let other = match form {
        Form::A => Form::B,
        Form::B => Form::A,
    };
    Ok(image::write(other, &table))
}

/// Gives the coverage name of bytes that are neither form.
fn neither_name(image: &[u8]) -> &'static str {
    match image.starts_with(&form_a::FIXED) {
        true => "refused.6.convert.begins-as-a",
        false => "refused.6.convert.other",
    }
}
