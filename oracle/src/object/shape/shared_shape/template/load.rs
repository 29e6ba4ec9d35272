//! Makes the shapes of a sound image, which no calls may lead to.

use std::{any::Any, cell::RefCell, collections::BTreeMap, rc::Rc};

use boa_gc::{Trace, Visitor, kept};

use super::super::{
    ForwardTransition, Inner, PropertyTable, ShapeFlags, SharedShape, SlotAttributes,
    TransitionKey, UniqueShape,
};
use crate::{
    image::{EdgeRecord, Image, ShapeRecord},
    object::{
        prototype_from_number,
        shape::{Shape, property_table::PropertyTableInner},
    },
    property::PropertyKey,
};

type SharedShapes = BTreeMap<u32, SharedShape>;

/// Every shape with its holds, by rising place. What the image leaves unheld
/// is the collector's as soon as the answer is dropped.
pub(crate) fn load(image: &Image) -> Vec<(Shape, u32)> {
    let records = image.shapes();
    let shared = shared_shapes(image, &records);
    add_edges(image, &records, &shared);
    let shape = |record: &ShapeRecord| match shared.get(&record.place) {
        Some(shape) => shape.clone().into(),
        None => unique_shape(image, record).into(),
    };
    records
        .iter()
        .map(|record| (shape(record), record.holds))
        .collect()
}

fn unique_shape(image: &Image, record: &ShapeRecord) -> UniqueShape {
    let prototype = prototype_from_number(record.prototype);
    UniqueShape::new(prototype, table_of(image, record.table))
}

fn table_of(image: &Image, place: u32) -> PropertyTableInner {
    let mut table = PropertyTableInner::default();
    for (key, attributes) in image.table(place) {
        let TransitionKey {
            property_key,
            attributes,
        } = transition_key(key, attributes);
        table.insert(property_key, attributes);
    }
    table
}

fn transition_key(key: u32, attributes: u8) -> TransitionKey {
    TransitionKey {
        property_key: PropertyKey::from_number(key).expect("the keys of an image are good"),
        attributes: SlotAttributes::from_bits_retain(attributes),
    }
}

// ## Shared shapes

/// By their places; shapes of one table share it.
fn shared_shapes(image: &Image, records: &[ShapeRecord]) -> SharedShapes {
    let mut tables = BTreeMap::new();
    let mut shapes = SharedShapes::new();
    let mut records: Vec<_> = records.iter().filter(|record| !record.is_unique).collect();
    // A previous shape has one transition less, so it is there before those that follow it.
    records.sort_by_key(|record| record.transition_count);
    for record in records {
        let table = tables.entry(record.table).or_insert_with(|| PropertyTable {
            inner: Rc::new(RefCell::new(table_of(image, record.table))),
        });
        let previous = shapes.get(&record.previous).cloned();
        shapes.insert(record.place, shared_shape(record, previous, table.clone()));
    }
    shapes
}

fn shared_shape(
    record: &ShapeRecord,
    previous: Option<SharedShape>,
    property_table: PropertyTable,
) -> SharedShape {
    let flags = previous
        .as_ref()
        .map_or(ShapeFlags::default(), SharedShape::flags);
    SharedShape::new(Inner {
        forward_transitions: ForwardTransition::default(),
        property_count: record.property_count,
        prototype: prototype_from_number(record.prototype),
        property_table,
        previous,
        transition_count: record.transition_count,
        flags: match record.kind {
            0 => ShapeFlags::insert_property_transition_from(flags),
            1 => ShapeFlags::configure_property_transition_from(flags),
            _ => ShapeFlags::prototype_transition_from(flags),
        },
    })
}

// ## Forward transitions

/// A dead edge is one to a shape that is here only while edges are added.
fn add_edges(image: &Image, records: &[ShapeRecord], shapes: &SharedShapes) {
    have_both_maps(shapes);
    let passing = SharedShape::root();
    for edge in image.edges() {
        let child = shapes.get(&edge.child).unwrap_or(&passing);
        add_edge(&shapes[&edge.parent], &edge, child);
    }
    for record in records.iter().filter(|record| !record.is_unique) {
        let mut counters = SetCounters(record.counters.iter());
        shapes[&record.place]
            .forward_transitions()
            .visit_cells(&mut counters);
    }
    drop(passing);
    kept::sweep();
}

/// A shape has a map of either kind from its first edge on, and a counter only
/// in that map.
fn have_both_maps(shapes: &SharedShapes) {
    let passing = SharedShape::root();
    for shape in shapes.values() {
        let transitions = shape.forward_transitions();
        transitions.insert_property(transition_key(0, 0), &passing.inner);
        transitions.insert_prototype(None, &passing.inner);
    }
    drop(passing);
    kept::sweep();
    for shape in shapes.values() {
        shape.forward_transitions().prune_property_transitions();
        shape.forward_transitions().prune_prototype_transitions();
    }
}

fn add_edge(parent: &SharedShape, edge: &EdgeRecord, child: &SharedShape) {
    let transitions = parent.forward_transitions();
    if edge.is_prototype {
        transitions.insert_prototype(prototype_from_number(edge.key), &child.inner);
    } else {
        transitions.insert_property(transition_key(edge.key, edge.attributes), &child.inner);
    }
}

/// Of properties and of prototypes: in the order of the maps.
struct SetCounters<'a>(std::slice::Iter<'a, u8>);

impl Visitor for SetCounters<'_> {
    fn byte(&mut self, byte: &mut u8) {
        *byte = *self.0.next().expect("a shape has two counters");
    }

    fn entry(&mut self, _key: &dyn Any, _is_live: bool) {}

    fn nothing(&mut self) {
        unreachable!("both maps are there")
    }
}
