//! What is inside a shape, as text.

use std::{any::Any, iter};

use boa_gc::{Trace, Visitor};

use super::super::{super::Inner, ShapeFlags, SharedShape, Slot, TransitionKey};
use crate::{
    object::{JsPrototype, prototype_number, shape::Shape},
    property::PropertyKey,
};

/// Of one trail.
const MOST_STEPS_SHOWN: usize = 16;

/// For each shape from this one back to its root: its step, its whole table,
/// and its forward transitions. A unique shape has no more than what is shown of it.
pub(crate) fn trail(shape: &Shape) -> Vec<String> {
    match &shape.inner {
        Inner::Shared(shared) => iter::successors(Some(shared), |shape| shape.previous())
            .take(MOST_STEPS_SHOWN)
            .map(shape_text)
            .collect(),
        Inner::Unique(_) => Vec::new(),
    }
}

fn shape_text(shape: &SharedShape) -> String {
    let kind = shape
        .flags()
        .intersection(ShapeFlags::TRANSITION_TYPE)
        .bits();
    let mut seen = Transitions::default();
    shape.forward_transitions().visit_cells(&mut seen);
    seen.edges.sort_unstable();
    let edges = seen.edges.iter().map(|(kind, key, attributes, is_live)| {
        format!("{kind}:{key}:{attributes}:{}", u8::from(*is_live))
    });
    format!(
        "step {kind} count {} proto {} properties {} table {} counters {} edges {}",
        shape.transition_count(),
        prototype_number(&shape.prototype()),
        shape.property_count(),
        entries_text(&shape.property_table().inner().borrow().keys),
        list(seen.counters.iter().map(ToString::to_string)),
        list(edges),
    )
}

/// A map that is not there is one without entries, with its counter at 0.
#[derive(Default)]
struct Transitions {
    counters: Vec<u8>,
    edges: Vec<(u8, u32, u8, bool)>,
}

impl Visitor for Transitions {
    fn byte(&mut self, byte: &mut u8) {
        self.counters.push(*byte);
    }

    fn entry(&mut self, key: &dyn Any, is_live: bool) {
        self.edges
            .push(if let Some(key) = key.downcast_ref::<TransitionKey>() {
                (0, key.property_key.number(), key.attributes.bits(), is_live)
            } else {
                let prototype = key.downcast_ref::<JsPrototype>();
                (
                    1,
                    prototype_number(prototype.expect("the other kind of edge")),
                    0,
                    is_live,
                )
            });
    }

    fn nothing(&mut self) {
        self.counters.push(0);
    }
}

pub(crate) fn entries_text(entries: &[(PropertyKey, Slot)]) -> String {
    list(
        entries
            .iter()
            .map(|(key, slot)| format!("{}:{}", key.number(), slot_text(Some(*slot)))),
    )
}

pub(crate) fn slot_text(slot: Option<Slot>) -> String {
    slot.map_or("none".to_string(), |slot| {
        format!("{}:{}", slot.attributes.bits(), slot.index)
    })
}

pub(crate) fn list(items: impl Iterator<Item = String>) -> String {
    format!("[{}]", items.collect::<Vec<_>>().join(" "))
}
