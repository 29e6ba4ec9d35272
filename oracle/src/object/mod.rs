//! Stand-in for boa's module of objects. A prototype is only compared and
//! copied by the shape files, so a number does for it.

use std::num::NonZeroU32;

use boa_gc::{Finalize, Trace, empty_trace};

// The shape files stay as they are, so what the driver does not call is unused.
#[allow(dead_code, unused_imports)]
pub(crate) mod shape;

/// An object, known by its number; 0 is kept for "no prototype".
#[derive(Debug, Clone, PartialEq, Eq, Hash, Finalize)]
pub struct JsObject(NonZeroU32);

// SAFETY: a number holds no references.
unsafe impl Trace for JsObject {
    empty_trace!();
}

pub type JsPrototype = Option<JsObject>;

pub fn prototype_from_number(number: u32) -> JsPrototype {
    NonZeroU32::new(number).map(JsObject)
}

pub fn prototype_number(prototype: &JsPrototype) -> u32 {
    prototype.as_ref().map_or(0, |object| object.0.get())
}
