//! A map for several threads.

use crate::error::Error;
use crate::map::Map;
use crate::snapshot::Snapshot;
use crate::value::Value;
use std::fmt;
use std::sync::{Mutex, MutexGuard, PoisonError};

/// A map that threads share: one of them is in a call at a time, and snapshots are read without a lock.
///
/// [`snapshot`](Shared::snapshot) holds the lock for the time of one call, whatever the number of pairs. So a thread that walks,
/// counts or looks up many keys takes a snapshot first, and no writer waits for it.
///
/// ```
/// use tambyulo::Shared;
///
/// let map = Shared::new();
/// std::thread::scope(|scope| {
///     for thread in 0..4u64 {
///         let map = &map;
///         scope.spawn(move || (0..100).try_for_each(|n| map.put((100 * thread + n).to_be_bytes(), n).map(drop)));
///     }
/// });
/// let snapshot = map.snapshot()?;
/// map.clear();
/// assert_eq!((snapshot.len(), map.len()), (400, 0));
/// # Ok::<(), tambyulo::Error>(())
/// ```
pub struct Shared<V: Value = u64> {
    map: Mutex<Map<V>>,
}

impl<V: Value> Shared<V> {
    /// A map with no pairs.
    pub fn new() -> Shared<V> {
        Shared::from(Map::new())
    }

    /// The map, while no other thread is in a call on it: for several calls that are one to the others. A thread that has it and
    /// makes another call of this `Shared` waits for itself.
    pub fn lock(&self) -> MutexGuard<'_, Map<V>> {
        // a thread that panicked had made its calls whole, so the map is one as any
        self.map.lock().unwrap_or_else(PoisonError::into_inner)
    }

    /// The map as it stands now, in the time of one call.
    ///
    /// # Errors
    ///
    /// As of [`Map::snapshot`].
    pub fn snapshot(&self) -> Result<Snapshot<V>, Error> {
        self.lock().snapshot()
    }

    /// How many pairs there are now.
    pub fn len(&self) -> usize {
        self.lock().len()
    }

    /// Whether there is no pair now.
    pub fn is_empty(&self) -> bool {
        self.len() == 0
    }

    /// The value that the key has now, or none.
    pub fn get(&self, key: impl AsRef<[u8]>) -> Option<V> {
        self.lock().get(key)
    }

    /// Whether the key has a value now.
    pub fn contains_key(&self, key: impl AsRef<[u8]>) -> bool {
        self.lock().contains_key(key)
    }

    /// As [`Map::put`].
    ///
    /// # Errors
    ///
    /// As of [`Map::put`].
    pub fn put(&self, key: impl AsRef<[u8]>, value: V) -> Result<Option<V>, Error> {
        self.lock().put(key, value)
    }

    /// As [`Map::put_if_absent`].
    ///
    /// # Errors
    ///
    /// As of [`Map::put`].
    pub fn put_if_absent(&self, key: impl AsRef<[u8]>, value: V) -> Result<Option<V>, Error> {
        self.lock().put_if_absent(key, value)
    }

    /// As [`Map::replace`].
    ///
    /// # Errors
    ///
    /// As of [`Map::replace`].
    pub fn replace(&self, key: impl AsRef<[u8]>, value: V) -> Result<Option<V>, Error> {
        self.lock().replace(key, value)
    }

    /// As [`Map::replace_if`].
    ///
    /// # Errors
    ///
    /// As of [`Map::replace_if`].
    pub fn replace_if(&self, key: impl AsRef<[u8]>, old: &V, value: V) -> Result<bool, Error> {
        self.lock().replace_if(key, old, value)
    }

    /// As [`Map::remove`].
    ///
    /// # Errors
    ///
    /// As of [`Map::remove`].
    pub fn remove(&self, key: impl AsRef<[u8]>) -> Result<Option<V>, Error> {
        self.lock().remove(key)
    }

    /// As [`Map::remove_if`].
    ///
    /// # Errors
    ///
    /// As of [`Map::remove_if`].
    pub fn remove_if(&self, key: impl AsRef<[u8]>, value: &V) -> Result<bool, Error> {
        self.lock().remove_if(key, value)
    }

    /// As [`Map::clear`].
    pub fn clear(&self) -> usize {
        self.lock().clear()
    }

    /// The map, of which this was the last handle.
    pub fn into_map(self) -> Map<V> {
        self.map.into_inner().unwrap_or_else(PoisonError::into_inner)
    }
}

impl<V: Value> Default for Shared<V> {
    fn default() -> Shared<V> {
        Shared::new()
    }
}

impl<V: Value> From<Map<V>> for Shared<V> {
    fn from(map: Map<V>) -> Shared<V> {
        Shared { map: Mutex::new(map) }
    }
}

/// It prints the pairs of one moment.
impl<V: Value + fmt::Debug> fmt::Debug for Shared<V> {
    fn fmt(&self, f: &mut fmt::Formatter<'_>) -> fmt::Result {
        self.snapshot().map_err(|_| fmt::Error)?.fmt(f)
    }
}
