//! Which commands of a row are drawn if there are too many: moves and other bytes before
//! failures, those before commands that met errors, then others; and earlier ones first.

use super::{Moment, Outcome};

/// Chooses at most so many of the groups of commands. Says of each whether it is drawn.
pub fn drawn(groups: &[&[&Moment]], most: usize) -> Vec<bool> {
    let mut order: Vec<usize> = (0..groups.len()).collect();
    order.sort_by_key(|&at| rank(groups[at][0]));
    let mut drawn = vec![false; groups.len()];
    for &at in order.iter().take(most) {
        drawn[at] = true;
    }
    drawn
}

/// Gives the commands of the groups that are not drawn.
pub fn left_out<'a>(groups: &[&[&'a Moment]], drawn: &[bool]) -> Vec<&'a Moment> {
    let groups = groups.iter().zip(drawn).filter(|(_, drawn)| !**drawn);
    groups.flat_map(|(same, _)| same.iter().copied()).collect()
}

/// Says whether a command failed, moved a block, was cut off or refused, or brought other
/// bytes.
pub fn is_notable(moment: &Moment) -> bool {
    let ended = matches!(moment.outcome, Outcome::Good | Outcome::None);
    moment.other_bytes || moment.moved.is_some() || !ended
}

/// Says how soon a command is left out, the last ones first.
fn rank(moment: &Moment) -> u8 {
    let errors = moment.accesses.iter().any(|mark| mark.errors() > 0);
    match moment.moved {
        // There are few of them: each takes a spare, or its store failed.
        Some(_) => 0,
        None if moment.other_bytes => 0,
        None if is_notable(moment) => 1,
        None if errors => 2,
        None => 3,
    }
}
