//! The counters of forward transitions, which only a test build can see.

use super::{SharedShape, SlotAttributes, TransitionKey};
use crate::{object::prototype_from_number, property::PropertyKey};

fn insert(parent: &SharedShape, id: u32) -> SharedShape {
    parent.insert_property_transition(TransitionKey {
        property_key: PropertyKey::String(id),
        attributes: SlotAttributes::empty(),
    })
}

#[test]
fn property_counter_wraps_at_the_256th_child() {
    let root = SharedShape::root();
    let counter = || root.forward_transitions().property_transitions_count().1;
    let mut children: Vec<_> = (0..255).map(|id| insert(&root, id)).collect();
    assert_eq!(counter(), 255);
    children.push(insert(&root, 255));
    assert_eq!(counter(), 0);
}

#[test]
fn prototype_counter_wraps_at_the_256th_child() {
    let root = SharedShape::root();
    let counter = || root.forward_transitions().prototype_transitions_count().1;
    let step = |number| root.change_prototype_transition(prototype_from_number(number));
    let mut children: Vec<_> = (0..255).map(step).collect();
    assert_eq!(counter(), 255);
    children.push(step(255));
    assert_eq!(counter(), 0);
}

#[test]
fn a_dead_edge_prunes_and_starts_the_counter_again() {
    let root = SharedShape::root();
    let state = || root.forward_transitions().property_transitions_count();
    let held = insert(&root, 1);
    insert(&root, 2);
    insert(&root, 3);
    assert_eq!(state(), (3, 3));
    let again = insert(&root, 2);
    assert_eq!(state(), (2, 1));
    drop((held, again));
}
