//! Names of rules and outcomes, and how often each was met.
//!
//! The controller calls `met` where it follows a rule. The counts are those of
//! the thread, so that tests do not mix theirs.

use std::cell::RefCell;
use std::collections::HashMap;

mod names;

pub use names::NAMES;

thread_local! {
    static MET: RefCell<HashMap<String, u64>> = RefCell::new(HashMap::new());
}

/// Counts a name.
pub fn met(name: &str) {
    MET.with_borrow_mut(|counts| match counts.get_mut(name) {
        Some(count) => *count += 1,
        None => {
            counts.insert(String::from(name), 1);
        }
    });
}

/// Begins at 0 again.
pub fn clear() {
    MET.with_borrow_mut(HashMap::clear);
}

/// How often a name was met.
pub fn count(name: &str) -> u64 {
    MET.with_borrow(|counts| counts.get(name).copied().unwrap_or(0))
}

/// The names that were met but are not in the list.
pub fn strangers() -> Vec<String> {
    MET.with_borrow(|counts| {
        let known = |name: &&String| !NAMES.contains(&name.as_str());
        let mut names: Vec<String> = counts.keys().filter(known).cloned().collect();
        names.sort();
        names
    })
}

/// The names of the list that were not met.
pub fn missing() -> Vec<&'static str> {
    NAMES
        .iter()
        .copied()
        .filter(|&name| count(name) == 0)
        .collect()
}

/// A line for each name with its count, and one that says how many were met.
pub fn report() -> String {
    let mut text: String = NAMES
        .iter()
        .map(|name| format!("{:8} {name}\n", count(name)))
        .collect();
    for name in strangers() {
        text += &format!("{:8} {name} (not in the list)\n", count(&name));
    }
    let met = NAMES.len() - missing().len();
    text + &format!("{met} of {} names were met\n", NAMES.len())
}

#[cfg(test)]
mod tests {
    use super::*;
    use std::collections::HashSet;

    #[test]
    fn counting() {
        clear();
        assert_eq!(missing().len(), NAMES.len());
        met(NAMES[0]);
        met(NAMES[0]);
        met("no.such.name");
        assert_eq!(count(NAMES[0]), 2);
        assert_eq!(count(NAMES[1]), 0);
        assert_eq!(strangers(), ["no.such.name"]);
        assert_eq!(missing().len(), NAMES.len() - 1);
        let report = report();
        assert!(report.starts_with(&format!("       2 {}\n", NAMES[0])));
        assert!(report.contains("       1 no.such.name (not in the list)\n"));
        assert!(report.ends_with(&format!("1 of {} names were met\n", NAMES.len())));
        clear();
        assert_eq!(count(NAMES[0]), 0);
    }

    #[test]
    fn names_differ() {
        let different: HashSet<&str> = NAMES.iter().copied().collect();
        assert_eq!(different.len(), NAMES.len());
    }
}
