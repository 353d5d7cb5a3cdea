//! A second implementation of document 01 and of requests 1 and 3 to 7 of document
//! 02, written from their text alone.
//!
//! It makes inputs for test programs and says what output is expected.
//! `geometry`, `image`, `controller` and `parity` are the rules of the documents,
//! `ledger` is the ledger of document 01 as request 7 of document 02 extends it;
//! `rng`, `text`, `coverage`, `drive`, `script` and `surface` are tools; `images` and
//! `scripts` make the cases; `fixtures` knows the files they go to; `compare` runs
//! scripts on another program; `world` goes all ways of small worlds under the ledger.

pub mod compare;
pub mod controller;
pub mod coverage;
pub mod drive;
pub mod fixtures;
pub mod geometry;
pub mod image;
pub mod images;
pub mod ledger;
pub mod parity;
pub mod rng;
pub mod script;
pub mod scripts;
pub mod surface;
pub mod text;
pub mod world;
