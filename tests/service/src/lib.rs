//! The proved service as Rust calls it, random boxes to lend to it, and what the tests have in common.
#[cfg(feature = "double")]
pub mod arc_boxes;
#[cfg(feature = "double")]
pub mod arc_calls;
#[cfg(feature = "double")]
pub mod arc_compare;
#[cfg(feature = "double")]
mod arc_double;
pub mod areas;
pub mod asked;
pub mod boxes;
pub mod calls;
pub mod compare;
#[cfg(feature = "double")]
mod double;
pub mod fresh;
pub mod mapped;
pub mod progress;
