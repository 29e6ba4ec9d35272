use std::{
    cell::{Ref, RefCell, RefMut},
    ops::Deref,
    rc::{Rc, Weak},
};

use crate::{Trace, kept};

/// A strong reference.
#[derive(Debug)]
pub struct Gc<T>(Rc<T>);

impl<T: Trace + 'static> Gc<T> {
    pub fn new(value: T) -> Self {
        let made = Rc::new(value);
        kept::keep(&made);
        Self(made)
    }
}

impl<T: Trace + Default + 'static> Default for Gc<T> {
    fn default() -> Self {
        Self::new(T::default())
    }
}

// Not derived: a copy of the reference asks nothing of `T`.
impl<T> Clone for Gc<T> {
    fn clone(&self) -> Self {
        Self(Rc::clone(&self.0))
    }
}

impl<T> Deref for Gc<T> {
    type Target = T;

    fn deref(&self) -> &T {
        &self.0
    }
}

impl<T> AsRef<T> for Gc<T> {
    fn as_ref(&self) -> &T {
        &self.0
    }
}

/// A reference that keeps nothing alive.
#[derive(Debug)]
pub struct WeakGc<T>(Weak<T>);

impl<T> WeakGc<T> {
    pub fn new(value: &Gc<T>) -> Self {
        Self(Rc::downgrade(&value.0))
    }

    pub fn upgrade(&self) -> Option<Gc<T>> {
        self.0.upgrade().map(Gc)
    }

    pub fn is_upgradable(&self) -> bool {
        self.0.strong_count() > 0
    }
}

impl<T> Clone for WeakGc<T> {
    fn clone(&self) -> Self {
        Self(Weak::clone(&self.0))
    }
}

impl<T> PartialEq for WeakGc<T> {
    fn eq(&self, other: &Self) -> bool {
        self.0.ptr_eq(&other.0)
    }
}

/// A cell with borrows checked at run time.
#[derive(Debug, Default)]
pub struct GcRefCell<T>(RefCell<T>);

impl<T> GcRefCell<T> {
    pub const fn new(value: T) -> Self {
        Self(RefCell::new(value))
    }

    pub fn borrow(&self) -> Ref<'_, T> {
        self.0.borrow()
    }

    pub fn borrow_mut(&self) -> RefMut<'_, T> {
        self.0.borrow_mut()
    }
}
