//! Power cuts that are ordered: at which access the power fails, and what the pending
//! write leaves.

use crate::board::Purpose;

/// What a write that is pending as the power fails leaves in its sector.
#[derive(Clone, Copy, Debug, PartialEq, Eq)]
pub enum Fate {
    Old,
    New,
    Unreadable,
}

impl Fate {
    pub const ALL: [Fate; 3] = [Fate::Old, Fate::New, Fate::Unreadable];

    /// Gives the word that a plan has for it.
    pub fn word(self) -> &'static str {
        match self {
            Fate::Old => "old",
            Fate::New => "new",
            Fate::Unreadable => "unreadable",
        }
    }
}

/// When the power fails.
#[derive(Clone, Copy, Debug, PartialEq, Eq)]
pub enum When {
    /// At this access of those that are asked for from now on, the first being 1.
    Access(u32),
    /// At the next store that is asked for.
    Store,
}

/// A power cut that is ordered.
#[derive(Clone, Copy, Debug, PartialEq, Eq)]
pub struct Order {
    pub when: When,
    pub fate: Fate,
}

impl Order {
    /// Counts an access. Says whether the power fails at it.
    fn is_due(&mut self, purpose: Purpose) -> bool {
        match &mut self.when {
            When::Access(left) => {
                *left -= 1;
                *left == 0
            }
            When::Store => purpose == Purpose::Store,
        }
    }
}

/// The power cuts that are ordered and did not come yet.
#[derive(Clone, Debug, Default)]
pub struct Power {
    orders: Vec<Order>,
}

impl Power {
    /// Orders one more; the number of an access is 1 at least.
    pub fn order(&mut self, order: Order) {
        self.orders.push(order);
    }

    /// Forgets all that is ordered.
    pub fn clear(&mut self) {
        self.orders.clear();
    }

    /// Says how many did not come yet.
    pub fn ordered(&self) -> usize {
        self.orders.len()
    }

    /// Counts an access that is asked for. If the power fails at it, says what a write
    /// leaves: what the first order says that is due. All that are due are spent.
    pub fn fails(&mut self, purpose: Purpose) -> Option<Fate> {
        let due = self.orders.extract_if(.., |order| order.is_due(purpose));
        let fates: Vec<Fate> = due.map(|order| order.fate).collect();
        fates.first().copied()
    }
}

#[cfg(test)]
mod tests {
    use super::*;

    fn with(orders: &[(When, Fate)]) -> Power {
        let mut power = Power::default();
        for &(when, fate) in orders {
            power.order(Order { when, fate });
        }
        power
    }

    #[test]
    fn every_access_counts() {
        let mut power = with(&[(When::Access(3), Fate::New)]);
        assert_eq!(power.fails(Purpose::Read), None);
        assert_eq!(power.fails(Purpose::Store), None);
        assert_eq!(power.ordered(), 1);
        assert_eq!(power.fails(Purpose::TrialWrite), Some(Fate::New));
        assert_eq!(power.ordered(), 0);
        assert_eq!(power.fails(Purpose::TrialWrite), None);
    }

    #[test]
    fn the_next_store_and_no_other_write() {
        let mut power = with(&[(When::Store, Fate::Unreadable)]);
        for purpose in [Purpose::Read, Purpose::Write, Purpose::TrialWrite] {
            assert_eq!(power.fails(purpose), None);
        }
        assert_eq!(power.fails(Purpose::Store), Some(Fate::Unreadable));
        assert_eq!(power.fails(Purpose::Store), None);
    }

    #[test]
    fn orders_that_are_due_at_once_are_spent_at_once() {
        let orders = [
            (When::Access(5), Fate::Old),
            (When::Store, Fate::New),
            (When::Access(2), Fate::Unreadable),
        ];
        let mut power = with(&orders);
        assert_eq!(power.fails(Purpose::Read), None);
        assert_eq!(power.fails(Purpose::Store), Some(Fate::New));
        assert_eq!(power.ordered(), 1);
        for _ in 0..2 {
            assert_eq!(power.fails(Purpose::Reread), None);
        }
        assert_eq!(power.fails(Purpose::Read), Some(Fate::Old));
        power = with(&orders);
        power.clear();
        assert_eq!(power.ordered(), 0);
    }
}
