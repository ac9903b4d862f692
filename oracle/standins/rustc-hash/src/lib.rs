//! Stand-in for rustc-hash: the standard map. It also counts, for each thread,
//! the `get`s that found nothing; that is how `unfound` is cross-checked.
#![forbid(unsafe_code)]

use std::borrow::Borrow;
use std::cell::Cell;
use std::collections::hash_map::{Entry, HashMap};
use std::hash::Hash;

thread_local! {
    static MISSED: Cell<u32> = const { Cell::new(0) };
}

/// The count of missed `get`s since the last call, which starts it anew.
pub fn take_missed() -> u32 {
    MISSED.replace(0)
}

#[derive(Debug)]
pub struct FxHashMap<K, V>(HashMap<K, V>);

impl<K, V> Default for FxHashMap<K, V> {
    fn default() -> Self {
        Self(HashMap::new())
    }
}

impl<K: Eq + Hash, V> FxHashMap<K, V> {
    pub fn get<Q>(&self, key: &Q) -> Option<&V>
    where
        K: Borrow<Q>,
        Q: Eq + Hash + ?Sized,
    {
        let found = self.0.get(key);
        if found.is_none() {
            MISSED.set(MISSED.get() + 1);
        }
        found
    }

    pub fn entry(&mut self, key: K) -> Entry<'_, K, V> {
        self.0.entry(key)
    }

    pub fn insert(&mut self, key: K, value: V) -> Option<V> {
        self.0.insert(key, value)
    }
}
