//! Stand-in for boa's module of the same name: templates are left out.
//!
//! Instead the insides of shapes are read here. They are private, but a child
//! module sees what is private in its ancestors, and this is a child of both
//! the shapes and the shared shapes. Only the table of a unique shape is out of
//! its sight; the stand-in `derive(Trace)` leads there.

pub(crate) mod inside;
pub(crate) mod load;

use std::{any::Any, cell::RefCell, collections::HashSet, ptr, rc::Rc};

use boa_gc::{Trace, kept};

use super::super::{
    Inner, Shape,
    property_table::{PropertyTable, PropertyTableInner},
    slot::Slot,
};
use crate::property::PropertyKey;

/// The number of transitions from the root; 0 for a unique shape.
pub(crate) fn transition_count(shape: &Shape) -> u16 {
    match &shape.inner {
        Inner::Shared(shared) => shared.transition_count(),
        Inner::Unique(_) => 0,
    }
}

/// None for a root or a unique shape.
pub(crate) fn previous(shape: &Shape) -> Option<Shape> {
    match &shape.inner {
        Inner::Shared(shared) => shared.previous().cloned().map(Into::into),
        Inner::Unique(_) => None,
    }
}

/// The shape's own entries in table order. They are taken from the list of the
/// table and not from its map, so that lookups, which use the map, can be
/// checked against them.
pub(crate) fn entries(shape: &Shape) -> Vec<(PropertyKey, Slot)> {
    match &shape.inner {
        Inner::Shared(shared) => {
            let count = shared.property_count() as usize;
            shared.property_table().inner().borrow().keys[..count].to_vec()
        }
        Inner::Unique(unique) => {
            let table = unique
                .ignored_field()
                .and_then(<dyn Any>::downcast_ref::<RefCell<PropertyTableInner>>)
                .expect("the ignored field of a unique shape is its table");
            table.borrow().keys.clone()
        }
    }
}

/// The number of tables of all shapes that wait for a sweep.
pub(crate) fn kept_tables() -> usize {
    let mut tables = HashSet::new();
    kept::for_each(|shape| {
        let field = shape.ignored_field().expect("each shape ignores its table");
        tables.insert(match field.downcast_ref::<PropertyTable>() {
            Some(shared) => Rc::as_ptr(&shared.inner).addr(),
            // A unique shape has its table in itself.
            None => ptr::from_ref(field).addr(),
        });
    });
    tables.len()
}
