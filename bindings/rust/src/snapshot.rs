//! A map as it stood at one moment.

use crate::error::Error;
use crate::iter::{IntoIter, Iter};
use crate::map::{Map, Text};
use crate::raw::Raw;
use crate::value::Value;
use std::fmt;

/// A map as it stood at one moment, which no write changes.
///
/// It goes to another thread (`Send`), where it is read without a lock. It is not `Sync`: each of two threads that read at once
/// takes a snapshot of its own, by [`clone`](Snapshot::clone), which costs one call.
///
/// ```
/// let mut map = tambyulo::Map::new();
/// map.put("apple", 5)?;
/// let snapshot = map.snapshot()?;
/// let reader = std::thread::spawn(move || snapshot.get("apple"));
/// map.put("apple", 6)?;
/// assert_eq!(reader.join().unwrap(), Some(5));
/// # Ok::<(), tambyulo::Error>(())
/// ```
pub struct Snapshot<V: Value = u64> {
    raw: Raw<V>,
}

impl<V: Value> Snapshot<V> {
    pub(crate) fn of(raw: Raw<V>) -> Snapshot<V> {
        Snapshot { raw }
    }

    /// How many pairs there are.
    pub fn len(&self) -> usize {
        self.raw.len() as usize
    }

    /// Whether there is no pair.
    pub fn is_empty(&self) -> bool {
        self.len() == 0
    }

    /// The value of the key, or none.
    pub fn get(&self, key: impl AsRef<[u8]>) -> Option<V> {
        self.raw.get(key.as_ref())
    }

    /// Whether the key has a value.
    pub fn contains_key(&self, key: impl AsRef<[u8]>) -> bool {
        self.raw.contains(key.as_ref())
    }

    /// How many keys begin with the prefix. It walks over all pairs.
    pub fn count_prefix(&self, prefix: impl AsRef<[u8]>) -> usize {
        self.raw.count_prefix(prefix.as_ref()) as usize
    }

    /// A walk over all pairs.
    pub fn iter(&self) -> Iter<'_, V> {
        Iter::over(&self.raw)
    }

    /// A second snapshot of the same moment, in the time of one call.
    ///
    /// # Errors
    ///
    /// [`Error::NoMemory`] where the count of handles on a node is at its end.
    pub fn try_clone(&self) -> Result<Snapshot<V>, Error> {
        Ok(Snapshot::of(self.raw.fork()?))
    }

    /// A map with these pairs, to be written, in the time of one call.
    ///
    /// # Errors
    ///
    /// As of [`try_clone`](Snapshot::try_clone).
    pub fn to_map(&self) -> Result<Map<V>, Error> {
        Ok(Map::of(self.raw.fork()?))
    }
}

/// As [`try_clone`](Snapshot::try_clone); it panics where that is refused.
impl<V: Value> Clone for Snapshot<V> {
    fn clone(&self) -> Snapshot<V> {
        self.try_clone().expect("a second snapshot")
    }
}

impl<V: Value + fmt::Debug> fmt::Debug for Snapshot<V> {
    fn fmt(&self, f: &mut fmt::Formatter<'_>) -> fmt::Result {
        f.debug_map()
            .entries(self.iter().map(|(key, value)| (Text(key), value)))
            .finish()
    }
}

impl<'a, V: Value> IntoIterator for &'a Snapshot<V> {
    type Item = (Vec<u8>, V);
    type IntoIter = Iter<'a, V>;

    fn into_iter(self) -> Iter<'a, V> {
        self.iter()
    }
}

impl<V: Value> IntoIterator for Snapshot<V> {
    type Item = (Vec<u8>, V);
    type IntoIter = IntoIter<V>;

    fn into_iter(self) -> IntoIter<V> {
        IntoIter::over(self.raw)
    }
}
