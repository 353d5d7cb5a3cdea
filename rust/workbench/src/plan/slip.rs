//! What is wrong with a line of a plan.

use super::help;

/// Says what is wrong with a line.
#[derive(Clone, Debug, PartialEq, Eq)]
pub enum Slip {
    /// Its form: something is missing, too much, or in the place of something else.
    Form(String),
    /// Something of which the message says all, as a number that is too large.
    Value(String),
}

impl Slip {
    /// Says it of this line: a wrong form with an example, unless a near word is offered.
    pub fn told(self, line: &str) -> String {
        match self {
            Slip::Form(fault) if !fault.ends_with('?') => fault + &example(line),
            Slip::Form(fault) | Slip::Value(fault) => fault,
        }
    }
}

/// Gives an example of a right line that begins as this one, to be put behind a fault.
fn example(line: &str) -> String {
    let example = help::example(line);
    example.map_or(String::new(), |example| format!("; an example: {example}"))
}
