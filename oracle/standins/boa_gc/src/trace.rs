use std::{any::Any, collections::HashMap};

use crate::{Gc, GcRefCell, WeakGc};

/// Counted references need no tracing. What is left of a trace is the way to
/// what is private in a shape and has to be read by the driver, or set where it
/// loads an image: its property table, which a trace must ignore, and its
/// forward transitions, which stand in a cell.
///
/// # Safety
///
/// None is needed here; the real trait is unsafe to implement.
pub unsafe trait Trace: 'static {
    /// The first field marked `#[unsafe_ignore_trace]`, in the order of the
    /// fields and through strong references.
    fn ignored_field(&self) -> Option<&dyn Any> {
        None
    }

    /// Shows what the cells of this value hold, in the order of the fields.
    fn visit_cells(&self, _visitor: &mut dyn Visitor) {}

    /// Shows the bytes and maps that this value has, in the order of the fields.
    fn visit(&mut self, _visitor: &mut dyn Visitor) {}

    /// Whether what this refers to is still there.
    fn is_live(&self) -> bool {
        true
    }
}

/// What is shown bytes, which it may set, the entries of maps, and that an
/// optional value is not there.
pub trait Visitor {
    fn byte(&mut self, byte: &mut u8);
    fn entry(&mut self, key: &dyn Any, is_live: bool);
    fn nothing(&mut self);
}

/// The real trait runs code before a value is freed; no shape has any.
pub trait Finalize {}

/// The body of an implementation of [`Trace`] for a value without references.
#[macro_export]
macro_rules! empty_trace {
    () => {};
}

unsafe impl Trace for u16 {}
unsafe impl Trace for u32 {}

unsafe impl Trace for u8 {
    fn visit(&mut self, visitor: &mut dyn Visitor) {
        visitor.byte(self);
    }
}

unsafe impl<T: Trace> Trace for Option<T> {
    fn ignored_field(&self) -> Option<&dyn Any> {
        self.as_ref()?.ignored_field()
    }

    fn visit(&mut self, visitor: &mut dyn Visitor) {
        match self {
            Some(value) => value.visit(visitor),
            None => visitor.nothing(),
        }
    }
}

impl<T: Finalize> Finalize for Option<T> {}

unsafe impl<T: Trace> Trace for Box<T> {
    fn ignored_field(&self) -> Option<&dyn Any> {
        (**self).ignored_field()
    }

    fn visit(&mut self, visitor: &mut dyn Visitor) {
        (**self).visit(visitor);
    }
}

unsafe impl<T: Trace> Trace for Gc<T> {
    fn ignored_field(&self) -> Option<&dyn Any> {
        (**self).ignored_field()
    }
}

unsafe impl<T: 'static> Trace for WeakGc<T> {
    fn is_live(&self) -> bool {
        self.is_upgradable()
    }
}

// The cells and maps of a shape hold its forward transitions and prototype,
// where no field is ignored.
unsafe impl<T: Trace> Trace for GcRefCell<T> {
    fn visit_cells(&self, visitor: &mut dyn Visitor) {
        self.borrow_mut().visit(visitor);
    }
}

unsafe impl<K: Trace, V: Trace, S: 'static> Trace for HashMap<K, V, S> {
    fn visit(&mut self, visitor: &mut dyn Visitor) {
        for (key, value) in self {
            visitor.entry(key, value.is_live());
        }
    }
}
