//! The workbench: a simulated drive on which outcomes can be ordered up.
//!
//! `platter` holds the sectors, `faults` what the surface is ordered to do, and
//! `surface` answers an access by the two; `power` says at which access the power fails.
//! `board` puts them under the proved controller, with `history` beside it, and `host`
//! makes the host's commands; `bus` carries what it is sent, with the parity bit, and
//! `clock` estimates what all of it would take.
//! `plan` reads a line of a plan, with its `data`, and `run` does it; `traffic` makes
//! random commands. `health` has the figures of the health block, and `table` says the
//! table in words. `show`, `status`, `trials`, `trace` and `summary` say what happened,
//! `progress` how far a long line is, `picture` draws it, and `report` makes a page of
//! it. `odds` runs a plan many times under random faults. `image_files` brings images on a
//! platter and takes them off; `table_files` shows the tables of files, and turns their
//! images into the other form; `rescue` takes tables off a platter and puts them on it;
//! `files` reads and writes all files. The command line is in the package `usage`.

pub mod board;
pub mod bus;
pub mod clock;
pub mod data;
pub mod faults;
pub mod files;
pub mod health;
pub mod history;
pub mod host;
pub mod image_files;
pub mod odds;
pub mod picture;
pub mod plan;
pub mod platter;
pub mod power;
pub mod progress;
pub mod report;
pub mod rescue;
pub mod run;
pub mod show;
pub mod status;
pub mod summary;
pub mod surface;
pub mod table;
pub mod table_files;
pub mod times;
pub mod trace;
pub mod traffic;
pub mod trials;
