//! The library beside the second implementation, `reference`: the same calls on
//! both, and what must be the same after each.
//!
//! `mapping` leads from the library's record to the reference's. `beside` makes a
//! call on all implementations, `trial` the seven calls on a record that no call
//! returned. `damage` and `bounds` make such records, and `clauses` names those on
//! either side of a bound of code 1. `converts` converts images of every kind, and
//! `stores` counts stores from every kind of run number.

pub mod beside;
pub mod bounds;
pub mod clauses;
pub mod converts;
pub mod damage;
pub mod mapping;
pub mod stores;
pub mod trial;
