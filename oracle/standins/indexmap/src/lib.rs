//! Stand-in for the crate indexmap: a map that keeps the order of insertion.
//!
//! Keys are found by a scan. That needs no hasher, so the third type parameter
//! is only there to be named.

use std::{collections::hash_map::RandomState, marker::PhantomData};

/// A map in the order of first insertion.
#[derive(Debug)]
pub struct IndexMap<K, V, S = RandomState> {
    entries: Vec<(K, V)>,
    hasher: PhantomData<S>,
}

impl<K, V, S> Default for IndexMap<K, V, S> {
    fn default() -> Self {
        Self {
            entries: Vec::new(),
            hasher: PhantomData,
        }
    }
}

impl<K: Eq, V, S> IndexMap<K, V, S> {
    /// The place of `key`, taken or not.
    pub fn entry(&mut self, key: K) -> Entry<'_, K, V> {
        Entry {
            entries: &mut self.entries,
            key,
        }
    }
}

impl<K, V, S> IntoIterator for IndexMap<K, V, S> {
    type Item = (K, V);
    type IntoIter = std::vec::IntoIter<(K, V)>;

    fn into_iter(self) -> Self::IntoIter {
        self.entries.into_iter()
    }
}

/// The place of one key in an [`IndexMap`].
#[derive(Debug)]
pub struct Entry<'a, K, V> {
    entries: &'a mut Vec<(K, V)>,
    key: K,
}

impl<'a, K: Eq, V> Entry<'a, K, V> {
    /// Leaves a value that is there; puts `value` at the end if there is none.
    pub fn or_insert(self, value: V) -> &'a mut V {
        let found = self.entries.iter().position(|(key, _)| *key == self.key);
        let place = found.unwrap_or_else(|| {
            self.entries.push((self.key, value));
            self.entries.len() - 1
        });
        &mut self.entries[place].1
    }
}
