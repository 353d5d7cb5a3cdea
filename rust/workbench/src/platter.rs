//! The platter: 9,792 sectors of 532 bytes, and which of them are unreadable.

mod file;
mod lock;

use std::collections::BTreeMap;
use std::rc::Rc;

use reference::geometry::{Sector, SECTORS, SECTOR_BYTES, TABLE};
use reference::image::{self, Form, Table};
use reference::surface::{Access, Bytes, Left, Sectors};

pub use file::{is_one, unreadable_file, PlatterFile, Source};

/// Length of a platter file.
pub const LENGTH: usize = SECTORS as usize * SECTOR_BYTES;

/// A platter.
#[derive(Clone, Debug)]
pub struct Platter {
    sectors: Sectors,
    /// The unreadable sectors, and the bytes that were last written there.
    remains: BTreeMap<Sector, Bytes>,
    /// It was changed since it was made, loaded or saved.
    changed: bool,
}

/// All sectors in their order.
pub fn all_sectors() -> impl Iterator<Item = Sector> {
    (0..SECTORS).filter_map(Sector::new)
}

/// The image of an empty table, of form B with run number 0.
pub fn empty_table() -> [u8; SECTOR_BYTES] {
    let table = Table::new(0, vec![], vec![]).expect("no entries make a table");
    image::write(Form::B, &table)
}

impl Platter {
    /// Zeros everywhere, and an empty table.
    pub fn blank() -> Platter {
        let mut platter = Platter::holding(&vec![0; LENGTH]);
        platter.sectors.hold(TABLE, &empty_table());
        platter.changed = true;
        platter
    }

    /// The platter with these bytes, all sectors readable.
    fn holding(bytes: &[u8]) -> Platter {
        let mut sectors = Sectors::new();
        for (sector, held) in all_sectors().zip(bytes.chunks_exact(SECTOR_BYTES)) {
            sectors.hold(sector, held);
        }
        Platter {
            sectors,
            remains: BTreeMap::new(),
            changed: false,
        }
    }

    /// Whether it was changed since it was made, loaded or saved.
    pub fn changed(&self) -> bool {
        self.changed
    }

    /// The sectors as the ledger sees them.
    pub fn sectors(&self) -> &Sectors {
        &self.sectors
    }

    /// What a sector holds, if it is readable.
    pub fn held(&self, sector: Sector) -> Option<Bytes> {
        self.sectors.get(sector)
    }

    /// The bytes of a sector, an unreadable one too.
    pub fn bytes(&self, sector: Sector) -> Bytes {
        let held = self.held(sector);
        held.or_else(|| self.remains.get(&sector).cloned())
            .expect("a sector holds bytes or has remains")
    }

    /// The table on the platter and its form, if its sector is readable and holds one.
    pub fn table(&self) -> Option<(Form, Table)> {
        image::read(&self.held(TABLE)?).ok()
    }

    /// The unreadable sectors in their order.
    pub fn unreadable(&self) -> Vec<Sector> {
        self.remains.keys().copied().collect()
    }

    /// Does to the sector of an access what its outcome says; a write was sent
    /// these bytes.
    pub fn leave(&mut self, access: Access, sent: &[u8], left: &Left) {
        let sector = access.sector();
        match left {
            Left::Alone => return,
            Left::Spoiled => self.make_unreadable(sector, sent),
            Left::Held(_) => {
                self.sectors.leave(access, left);
                self.remains.remove(&sector);
            }
        }
        self.changed = true;
    }

    /// Document 01 calls it spoiled.
    fn make_unreadable(&mut self, sector: Sector, bytes: &[u8]) {
        self.sectors.spoil(sector);
        self.remains.insert(sector, Rc::from(bytes));
    }

    fn all_bytes(&self) -> Vec<u8> {
        all_sectors().fold(Vec::with_capacity(LENGTH), |mut all, sector| {
            all.extend_from_slice(&self.bytes(sector));
            all
        })
    }
}

#[cfg(test)]
mod tests {
    use super::*;

    fn sector(number: u32) -> Sector {
        Sector::new(number).expect("a sector")
    }

    #[test]
    fn a_blank_platter() {
        let platter = Platter::blank();
        assert_eq!(platter.all_bytes().len(), 5_209_344);
        let empty = Table::new(0, vec![], vec![]).expect("a table");
        assert_eq!(platter.table(), Some((Form::B, empty)));
        assert_eq!(platter.held(sector(17)).as_deref(), Some(&[0; 532][..]));
    }
}
