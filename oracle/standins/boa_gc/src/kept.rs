//! When values are freed: at once, or at a sweep.
//!
//! At once is what counting does by itself. For the other way every value made
//! is kept by one more strong reference, which a sweep gives up if it is the
//! last. The real collector runs at times of its own between these two.

use std::{cell::RefCell, rc::Rc};

use crate::Trace;

type Kept = Vec<Rc<dyn Trace>>;

thread_local! {
    /// `None` while values are freed at once.
    static KEPT: RefCell<Option<Kept>> = const { RefCell::new(None) };
}

/// From now on values are freed only by [`sweep`].
pub fn free_at_sweep() {
    KEPT.with_borrow_mut(|kept| {
        kept.get_or_insert_default();
    });
}

pub(crate) fn keep<T: Trace + 'static>(made: &Rc<T>) {
    KEPT.with_borrow_mut(|kept| {
        if let Some(kept) = kept {
            kept.push(made.clone());
        }
    });
}

/// Shows every kept value.
pub fn for_each(mut show: impl FnMut(&dyn Trace)) {
    KEPT.with_borrow(|kept| {
        for made in kept.iter().flatten() {
            show(&**made);
        }
    });
}

/// Frees what only this module keeps, and answers how many values that were.
/// Frees nothing while values are freed at once.
pub fn sweep() -> usize {
    KEPT.with_borrow_mut(|kept| {
        let Some(kept) = kept else { return 0 };
        let before = kept.len();
        while free_once(kept) {}
        before - kept.len()
    })
}

/// One pass; answers whether it freed anything.
fn free_once(kept: &mut Kept) -> bool {
    let before = kept.len();
    // A shape is made after its previous one. Going back from the newest, each
    // is dropped before its previous is looked at, so one pass mostly does.
    *kept = std::mem::take(kept)
        .into_iter()
        .rev()
        .filter(|made| Rc::strong_count(made) > 1)
        .collect();
    kept.reverse();
    kept.len() < before
}
