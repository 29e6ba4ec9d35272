//! Stand-in for boa's module of the same name, which the oracle leaves out:
//! the shape files only pass this name on.

pub struct RootShape;
