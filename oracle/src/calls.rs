//! The four transitions of a shape, and what is refused before them.

use std::panic::{self, AssertUnwindSafe};

use crate::{
    line::{Call, CallKind},
    object::{
        prototype_from_number,
        shape::{ChangeTransitionAction, Shape, shared_shape::TransitionKey, slot::SlotAttributes},
    },
    property::PropertyKey,
    refusal::Refusal,
};

const HIGHEST_ATTRIBUTES: u32 = 31;

pub enum Answer {
    Shape { shape: Shape, action: u8 },
    Refused(Refusal),
    Panicked(String),
}

/// A call whose numbers have become the values of the shape files.
enum Transition {
    Insert(TransitionKey),
    Change(TransitionKey),
    Remove(PropertyKey),
    Prototype(u32),
}

/// Makes the call on `shape`, the shape of the call's handle if that is live.
/// With `catch` a call with a key that is wrongly there or not is made too.
pub fn make(call: &Call, shape: Option<&Shape>, catch: bool) -> Answer {
    // In this order, because a line may earn several refusals.
    let transition = match transition(call.kind) {
        Ok(transition) => transition,
        Err(refusal) => return Answer::Refused(refusal),
    };
    let Some(shape) = shape else {
        return Answer::Refused(Refusal::NoShape);
    };
    if catch {
        return catch_panic(|| apply(shape, transition));
    }
    match refusal(shape, &transition) {
        Some(refusal) => Answer::Refused(refusal),
        None => apply(shape, transition),
    }
}

fn transition(kind: CallKind) -> Result<Transition, Refusal> {
    Ok(match kind {
        CallKind::Insert { key, attributes } => Transition::Insert(pair(key, attributes)?),
        CallKind::Change { key, attributes } => Transition::Change(pair(key, attributes)?),
        CallKind::Remove { key } => Transition::Remove(good_key(key)?),
        CallKind::Prototype { prototype } => Transition::Prototype(prototype),
    })
}

fn good_key(key: u32) -> Result<PropertyKey, Refusal> {
    PropertyKey::from_number(key).ok_or(Refusal::BadKey)
}

fn pair(key: u32, attributes: u32) -> Result<TransitionKey, Refusal> {
    let property_key = good_key(key)?;
    if attributes > HIGHEST_ATTRIBUTES {
        return Err(Refusal::BadAttributes);
    }
    Ok(TransitionKey {
        property_key,
        attributes: SlotAttributes::from_bits_retain(attributes as u8),
    })
}

/// The Rust assumes that its callers have looked the key up; this does so.
fn refusal(shape: &Shape, transition: &Transition) -> Option<Refusal> {
    let held = |key: &PropertyKey| shape.lookup(key).is_some();
    match transition {
        Transition::Insert(new) => held(&new.property_key).then_some(Refusal::Present),
        Transition::Change(new) => (!held(&new.property_key)).then_some(Refusal::Absent),
        // A unique shape answers itself when the key is absent.
        Transition::Remove(key) => (shape.is_shared() && !held(key)).then_some(Refusal::Absent),
        Transition::Prototype(_) => None,
    }
}

fn apply(shape: &Shape, transition: Transition) -> Answer {
    let (shape, action) = match transition {
        Transition::Insert(new) => (shape.insert_property_transition(new), 0),
        Transition::Change(new) => {
            let change = shape.change_attributes_transition(new);
            (change.shape, action_number(&change.action))
        }
        Transition::Remove(key) => (shape.remove_property_transition(&key), 0),
        Transition::Prototype(number) => {
            let prototype = prototype_from_number(number);
            (shape.change_prototype_transition(prototype), 0)
        }
    };
    Answer::Shape { shape, action }
}

fn action_number(action: &ChangeTransitionAction) -> u8 {
    match action {
        ChangeTransitionAction::Nothing => 0,
        ChangeTransitionAction::Remove => 1,
        ChangeTransitionAction::Insert => 2,
    }
}

/// Quiet only around the call, so that a fault of the driver is still heard.
fn catch_panic(call: impl FnOnce() -> Answer) -> Answer {
    let usual_hook = panic::take_hook();
    panic::set_hook(Box::new(|_| {}));
    let outcome = panic::catch_unwind(AssertUnwindSafe(call));
    panic::set_hook(usual_hook);
    outcome.unwrap_or_else(|payload| {
        let message = payload
            .downcast_ref::<&str>()
            .map(ToString::to_string)
            .or_else(|| payload.downcast_ref::<String>().cloned());
        Answer::Panicked(message.unwrap_or_default())
    })
}
