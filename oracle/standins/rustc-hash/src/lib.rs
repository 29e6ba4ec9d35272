//! Stand-in for the crate rustc-hash: its names over the standard hasher.

use std::{
    collections::HashMap,
    hash::{BuildHasher, DefaultHasher},
};

pub type FxHashMap<K, V> = HashMap<K, V, FxBuildHasher>;

/// Hashes with fixed keys, so that two runs of the oracle do the same.
#[derive(Debug, Default, Clone, Copy)]
pub struct FxBuildHasher;

impl BuildHasher for FxBuildHasher {
    type Hasher = DefaultHasher;

    fn build_hasher(&self) -> DefaultHasher {
        DefaultHasher::new()
    }
}
