//! Pictures: a platter, the run of a plan and the odds of one, each as one SVG file that needs
//! nothing else. The same input gives the same bytes.

mod odds;
mod platter;
pub(crate) mod svg;
mod timeline;

pub use odds::odds;
pub use platter::platter;
pub(crate) use platter::view;
pub use timeline::{timeline, Mark, Moment, Move, Outcome};
