//! A list of bounded length: it keeps its first and its last things, those of note apart
//! from the plain ones, and counts what it leaves out.

use std::collections::VecDeque;

/// How many things are kept: of the first, and of the last, one at least.
pub type Most = (usize, usize);

/// How many things of a list are kept, plain ones and those of note.
#[derive(Clone, Copy, Debug)]
pub struct Room {
    pub plain: Most,
    pub noted: Most,
}

/// A thing, and which of those that were counted it stands for.
#[derive(Clone, Debug)]
struct Item<T> {
    from: u64,
    length: u64,
    thing: T,
}

/// The first and the last things of a list.
#[derive(Clone, Debug)]
struct Ends<T> {
    first: Vec<Item<T>>,
    last: VecDeque<Item<T>>,
    most: Most,
}

/// A list that keeps so many of its things.
#[derive(Clone, Debug)]
pub struct Kept<T> {
    plain: Ends<T>,
    noted: Ends<T>,
    counted: u64,
    /// The last thing is one of note.
    last_noted: bool,
}

/// A part of a list.
#[derive(Clone, Copy, Debug, PartialEq, Eq)]
pub enum Part<'a, T> {
    /// A thing, the number of the first that it stands for, from 0 on, and how many.
    Thing(&'a T, u64, u64),
    /// So many are left out.
    Gap(u64),
}

impl<T> Ends<T> {
    fn new(most: Most) -> Ends<T> {
        Ends {
            first: vec![],
            last: VecDeque::new(),
            most,
        }
    }

    fn push(&mut self, item: Item<T>) {
        let (first, last) = self.most;
        if self.first.len() < first {
            self.first.push(item);
            return;
        }
        while self.last.len() >= last.max(1) {
            self.last.pop_front();
        }
        self.last.push_back(item);
    }

    fn newest(&mut self) -> Option<&mut Item<T>> {
        self.last.back_mut().or(self.first.last_mut())
    }

    fn items(&self) -> impl Iterator<Item = &Item<T>> {
        self.first.iter().chain(&self.last)
    }
}

impl<T> Kept<T> {
    /// Makes an empty list.
    pub fn new(room: Room) -> Kept<T> {
        Kept {
            plain: Ends::new(room.plain),
            noted: Ends::new(room.noted),
            counted: 0,
            last_noted: false,
        }
    }

    /// Gives it another room for things that are added from now on.
    pub fn set_room(&mut self, room: Room) {
        self.plain.most = room.plain;
        self.noted.most = room.noted;
    }

    /// Adds a thing that stands for so many.
    pub fn push(&mut self, thing: T, length: u64, noted: bool) {
        let from = self.counted;
        let ends = match noted {
            true => &mut self.noted,
            false => &mut self.plain,
        };
        ends.push(Item {
            from,
            length,
            thing,
        });
        self.counted += length;
        self.last_noted = noted;
    }

    /// Finds the thing that was added last.
    pub fn last(&mut self) -> Option<&mut T> {
        self.newest().map(|item| &mut item.thing)
    }

    /// Lets the last thing stand for so many more.
    pub fn lengthen(&mut self, more: u64) {
        if let Some(item) = self.newest() {
            item.length += more;
            self.counted += more;
        }
    }

    fn newest(&mut self) -> Option<&mut Item<T>> {
        match self.last_noted {
            true => self.noted.newest(),
            false => self.plain.newest(),
        }
    }

    /// Says how many were counted.
    pub fn counted(&self) -> u64 {
        self.counted
    }

    /// Says how many things are kept.
    pub fn kept(&self) -> usize {
        self.plain.items().count() + self.noted.items().count()
    }

    /// Lists the things that are kept in their order, with a gap where some are left out.
    pub fn parts(&self) -> Vec<Part<'_, T>> {
        let mut items: Vec<&Item<T>> = self.plain.items().chain(self.noted.items()).collect();
        items.sort_by_key(|item| item.from);
        let (mut parts, mut next) = (vec![], 0);
        for item in items {
            if item.from > next {
                parts.push(Part::Gap(item.from - next));
            }
            parts.push(Part::Thing(&item.thing, item.from, item.length));
            next = item.from + item.length;
        }
        if self.counted > next {
            parts.push(Part::Gap(self.counted - next));
        }
        parts
    }

    /// Lists the things that are kept, in their order.
    pub fn things(&self) -> Vec<&T> {
        let thing = |part| match part {
            Part::Thing(thing, ..) => Some(thing),
            Part::Gap(_) => None,
        };
        self.parts().into_iter().filter_map(thing).collect()
    }

    /// Lists the numbers of the things that are kept, from 0 on.
    pub fn places(&self) -> impl Iterator<Item = u64> + '_ {
        let items = self.plain.items().chain(self.noted.items());
        items.map(|item| item.from)
    }

    /// Changes each thing that is kept, by its place among them.
    pub fn each(&mut self, mut change: impl FnMut(usize, &mut T)) {
        let plain = self.plain.first.iter_mut().chain(&mut self.plain.last);
        let noted = self.noted.first.iter_mut().chain(&mut self.noted.last);
        let mut items: Vec<&mut Item<T>> = plain.chain(noted).collect();
        items.sort_by_key(|item| item.from);
        for (place, item) in items.into_iter().enumerate() {
            change(place, &mut item.thing);
        }
    }

    /// Says how many are left out.
    pub fn left_out(&self) -> u64 {
        let gap = |part| match part {
            Part::Thing(..) => 0,
            Part::Gap(gap) => gap,
        };
        self.parts().into_iter().map(gap).sum()
    }
}

#[cfg(test)]
mod tests {
    use super::*;

    const ROOM: Room = Room {
        plain: (2, 1),
        noted: (1, 1),
    };

    #[test]
    fn few_are_all_kept() {
        let mut kept = Kept::new(ROOM);
        kept.push('a', 1, false);
        kept.push('b', 1, true);
        kept.lengthen(3);
        kept.push('c', 2, false);
        let parts = [
            Part::Thing(&'a', 0, 1),
            Part::Thing(&'b', 1, 4),
            Part::Thing(&'c', 5, 2),
        ];
        assert_eq!(kept.parts(), parts);
        assert_eq!((kept.counted(), kept.left_out(), kept.kept()), (7, 0, 3));
        assert_eq!(kept.last(), Some(&mut 'c'));
    }

    #[test]
    fn of_many_the_ends_and_those_of_note_are() {
        let mut kept = Kept::new(ROOM);
        for number in 0..100 {
            kept.push(number, 1, [10, 20, 30].contains(&number));
        }
        let parts = [
            Part::Thing(&0, 0, 1),
            Part::Thing(&1, 1, 1),
            Part::Gap(8),
            Part::Thing(&10, 10, 1),
            Part::Gap(19),
            Part::Thing(&30, 30, 1),
            Part::Gap(68),
            Part::Thing(&99, 99, 1),
        ];
        assert_eq!(kept.parts(), parts);
        assert_eq!(kept.things(), [&0, &1, &10, &30, &99]);
        assert_eq!(kept.left_out(), 95);
    }

    #[test]
    fn less_room() {
        let mut kept = Kept::new(Room {
            plain: (2, 3),
            noted: (1, 1),
        });
        (0..9).for_each(|number| kept.push(number, 1, false));
        assert_eq!(kept.things(), [&0, &1, &6, &7, &8]);
        kept.set_room(ROOM);
        kept.push(9, 1, false);
        assert_eq!(kept.things(), [&0, &1, &9]);
        assert_eq!(kept.left_out(), 7);
    }

    #[test]
    fn an_empty_list() {
        let mut kept: Kept<u8> = Kept::new(ROOM);
        kept.lengthen(3);
        assert_eq!((kept.parts().len(), kept.last()), (0, None));
    }
}
