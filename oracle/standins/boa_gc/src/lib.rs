//! Stand-in for the crate boa_gc: counted references instead of a collector.
//!
//! Shapes hold their previous shape strongly and their next ones weakly, so
//! there are no cycles of strong references and counting frees exactly what a
//! collector could free. [`kept`] decides when that happens.

pub mod kept;
mod pointers;
mod trace;

pub use boa_gc_derive::{Finalize, Trace};
pub use pointers::{Gc, GcRefCell, WeakGc};
pub use trace::{Finalize, Trace, Visitor};
