//! The spares of a platter, taken off as they are. They have the newest bytes of the blocks
//! that moved, and without a table nobody knows of which.

use std::path::Path;

use reference::geometry::{spare, SECTOR_BYTES, SPARES};
use usage::outputs::Output;

use crate::files;
use crate::platter::Platter;
use crate::show;

/// Tells which spares of a platter hold bytes, and which cannot be read.
#[derive(Clone, Debug, Default, PartialEq, Eq)]
pub struct Spares {
    /// They hold more than zeros.
    held: Vec<usize>,
    /// They cannot be read.
    lost: Vec<usize>,
}

impl Spares {
    /// Looks at the spares of a platter. Returns their bytes too, zeros for those that
    /// cannot be read.
    pub fn of(platter: &Platter) -> (Spares, Vec<u8>) {
        let mut spares = Spares::default();
        let mut bytes = vec![];
        for k in 0..SPARES {
            match spare(k).and_then(|sector| platter.held(sector)) {
                Some(held) => {
                    bytes.extend_from_slice(&held);
                    spares
                        .held
                        .extend(held.iter().any(|&b| b != 0).then_some(k));
                }
                None => {
                    bytes.extend_from_slice(&[0; SECTOR_BYTES]);
                    spares.lost.push(k);
                }
            }
        }
        (spares, bytes)
    }

    /// Takes the spares of a platter off to a new file, and leaves the platter.
    pub fn take(path: &Path, to: &Path) -> Result<Spares, String> {
        let (spares, bytes) = Spares::of(&Platter::load(path)?);
        files::write(&Output::to_new(to, "what the spares hold"), &bytes)?;
        Ok(spares)
    }

    /// Says what was taken off.
    pub fn lines(&self, path: &Path, to: &Path) -> Vec<String> {
        let (name, file) = (path.display(), to.display());
        let all = show::spare_names(&(0..SPARES).collect::<Vec<usize>>());
        vec![format!("{file}: {all} of {name}"), self.holding()]
    }

    /// Says what could not be read, if there is something.
    pub fn fault(&self, path: &Path, to: &Path) -> Option<String> {
        let (name, file) = (path.display(), to.display());
        let lost = named(&self.lost)?;
        Some(format!(
            "{name}: what cannot be read: {lost}; {file} has zeros there"
        ))
    }

    /// Says where newer bytes than those of the home sectors are, and how they are had.
    pub fn notes(&self, path: &Path) -> Vec<String> {
        let mut notes = vec![self.holding()];
        if !self.held.is_empty() {
            notes.push(format!(
                "  (the newest of blocks that moved; workbench export --spares {} FILE takes them \
                 off)",
                path.display()
            ));
        }
        notes
    }

    /// Says which spares hold bytes.
    fn holding(&self) -> String {
        let held = named(&self.held).unwrap_or(String::from("no spare"));
        format!("  bytes other than zeros are in {held}")
    }
}

/// Names spares with their sectors, if there are some.
fn named(spares: &[usize]) -> Option<String> {
    match spares {
        [] => None,
        [k] => Some(show::spare_name(*k)),
        _ => Some(show::spare_names(spares)),
    }
}

#[cfg(test)]
mod tests {
    use super::*;
    use reference::surface::{Access, Left};

    /// Makes a platter with bytes in the first of these spares, and the others unreadable.
    fn platter(held: &[usize], lost: &[usize]) -> Platter {
        let mut platter = Platter::blank();
        let bytes = [7; SECTOR_BYTES];
        let mut leave = |k: &usize, left| {
            let sector = spare(*k).expect("a spare");
            platter.leave(Access::Write(sector), &bytes, &left);
        };
        held.iter()
            .for_each(|k| leave(k, Left::Held(bytes.to_vec())));
        lost.iter().for_each(|k| leave(k, Left::Spoiled));
        platter
    }

    #[test]
    fn spares_are_told_by_what_they_hold() {
        let (p, s) = (Path::new("p"), Path::new("s"));
        let (none, bytes) = Spares::of(&platter(&[], &[]));
        assert_eq!(bytes, [0; 32 * 532]);
        assert_eq!(none.notes(p), ["  bytes other than zeros are in no spare"]);
        assert_eq!(none.fault(p, s), None);
        let (some, bytes) = Spares::of(&platter(&[0, 2, 31], &[1]));
        assert_eq!(bytes.len(), 32 * 532);
        for (k, byte) in [(0, 7), (1, 0), (2, 7), (3, 0), (31, 7)] {
            assert_eq!(bytes[k * 532..][..532], [byte; 532], "{k}");
        }
        let said = "  bytes other than zeros are in spares 0, 2, 31 (sectors 4928, 4930, 4959)";
        assert_eq!(some.notes(p)[0], said);
        let lines = [
            "s: spares 0..31 (sectors 4928..4959) of p",
            "  bytes other than zeros are in spares 0, 2, 31 (sectors 4928, 4930, 4959)",
        ];
        assert_eq!(some.lines(p, s), lines);
        let said = "p: what cannot be read: spare 1 (sector 4929); s has zeros there";
        assert_eq!(some.fault(p, s).as_deref(), Some(said));
    }
}
