//! The map of one owner.

use crate::error::Error;
use crate::iter::{IntoIter, Iter};
use crate::raw::Raw;
use crate::snapshot::Snapshot;
use crate::value::Value;
use std::fmt;

/// A map from texts of any bytes to numbers of 64 bits, or, as `Map<Vec<u8>>`, to texts of any bytes.
///
/// ```
/// let mut map = tambyulo::Map::<Vec<u8>>::new();
/// map.put("name", b"Ada".to_vec())?;
/// assert_eq!(map.put("name", b"Grace".to_vec())?, Some(b"Ada".to_vec()));
/// # Ok::<(), tambyulo::Error>(())
/// ```
pub struct Map<V: Value = u64> {
    raw: Raw<V>,
}

impl<V: Value> Map<V> {
    /// A map with no pairs, which may have [`MOST_PAIRS`](crate::MOST_PAIRS).
    pub fn new() -> Map<V> {
        Map { raw: Raw::new() }
    }

    pub(crate) fn of(raw: Raw<V>) -> Map<V> {
        Map { raw }
    }

    /// Limits the map to `most` pairs, and returns the limit that it has then: no fewer than its pairs and than 1, and no more
    /// than [`MOST_PAIRS`](crate::MOST_PAIRS).
    ///
    /// ```
    /// let mut map = tambyulo::Map::new();
    /// assert_eq!(map.limit(1), 1);
    /// map.put("a", 1)?;
    /// assert_eq!(map.put("b", 2), Err(tambyulo::Error::Full));
    /// # Ok::<(), tambyulo::Error>(())
    /// ```
    pub fn limit(&mut self, most: u64) -> u64 {
        self.raw.limit(most)
    }

    /// How many pairs there are.
    pub fn len(&self) -> usize {
        self.raw.len() as usize
    }

    /// Whether there is no pair.
    pub fn is_empty(&self) -> bool {
        self.len() == 0
    }

    /// The value of the key, or none.
    pub fn get(&self, key: impl AsRef<[u8]>) -> Option<V> {
        self.raw.get(key.as_ref())
    }

    /// Whether the key has a value.
    pub fn contains_key(&self, key: impl AsRef<[u8]>) -> bool {
        self.raw.contains(key.as_ref())
    }

    /// Maps the key to the value, and returns the value before, or none.
    ///
    /// # Errors
    ///
    /// [`Error::Full`] where the key is new and the map full; [`Error::NoMemory`] where memory was refused.
    pub fn put(&mut self, key: impl AsRef<[u8]>, value: V) -> Result<Option<V>, Error> {
        self.raw.put(key.as_ref(), &value)
    }

    /// Maps the key to the value where it has none, and returns the value that it had, or none.
    ///
    /// # Errors
    ///
    /// As of [`put`](Map::put).
    pub fn put_if_absent(&mut self, key: impl AsRef<[u8]>, value: V) -> Result<Option<V>, Error> {
        self.raw.put_if_absent(key.as_ref(), &value)
    }

    /// Maps the key to the value where it has one, and returns the value before, or none.
    ///
    /// # Errors
    ///
    /// [`Error::NoMemory`] where memory was refused.
    pub fn replace(&mut self, key: impl AsRef<[u8]>, value: V) -> Result<Option<V>, Error> {
        self.raw.replace(key.as_ref(), &value)
    }

    /// Maps the key to the value where it has the value `old`, and returns whether it had.
    ///
    /// # Errors
    ///
    /// [`Error::NoMemory`] where memory was refused.
    pub fn replace_if(&mut self, key: impl AsRef<[u8]>, old: &V, value: V) -> Result<bool, Error> {
        self.raw.replace_if(key.as_ref(), old, &value)
    }

    /// Removes the key, and returns the value before, or none.
    ///
    /// # Errors
    ///
    /// [`Error::NoMemory`] where memory was refused: a node on the way may be shared with a snapshot, and is copied then.
    pub fn remove(&mut self, key: impl AsRef<[u8]>) -> Result<Option<V>, Error> {
        self.raw.remove(key.as_ref())
    }

    /// Removes the key where it has the value, and returns whether it had.
    ///
    /// # Errors
    ///
    /// As of [`remove`](Map::remove).
    pub fn remove_if(&mut self, key: impl AsRef<[u8]>, value: &V) -> Result<bool, Error> {
        self.raw.remove_if(key.as_ref(), value)
    }

    /// Removes all pairs, and returns how many there were. It is never refused.
    pub fn clear(&mut self) -> usize {
        self.raw.clear() as usize
    }

    /// How many keys begin with the prefix. It walks over all pairs.
    pub fn count_prefix(&self, prefix: impl AsRef<[u8]>) -> usize {
        self.raw.count_prefix(prefix.as_ref()) as usize
    }

    /// The map as it stands now, in the time of one call. It may be read on another thread while this map is written. The first
    /// write at a key after it copies the nodes on the way to that key, which takes as long as some sixteen puts.
    ///
    /// # Errors
    ///
    /// [`Error::NoMemory`] where the count of handles on a node is at its end.
    pub fn snapshot(&self) -> Result<Snapshot<V>, Error> {
        Ok(Snapshot::of(self.raw.fork()?))
    }

    /// Another map with the same pairs and limit, in the time of one call. From then on each goes its own way.
    ///
    /// # Errors
    ///
    /// As of [`snapshot`](Map::snapshot).
    pub fn fork(&self) -> Result<Map<V>, Error> {
        Ok(Map::of(self.raw.fork()?))
    }

    /// A walk over all pairs. The map is borrowed meanwhile; to write it during the walk, walk a snapshot.
    pub fn iter(&self) -> Iter<'_, V> {
        Iter::over(&self.raw)
    }

    /// Puts pairs one after another, up to the first that is refused.
    ///
    /// # Errors
    ///
    /// As of [`put`](Map::put). The pairs before are in the map then.
    pub fn try_extend<K: AsRef<[u8]>>(&mut self, pairs: impl IntoIterator<Item = (K, V)>) -> Result<(), Error> {
        for (key, value) in pairs {
            self.put(key, value)?;
        }
        Ok(())
    }
}

impl<V: Value> Default for Map<V> {
    fn default() -> Map<V> {
        Map::new()
    }
}

/// As [`fork`](Map::fork); it panics where that is refused.
impl<V: Value> Clone for Map<V> {
    fn clone(&self) -> Map<V> {
        self.fork().expect("a fork of a map")
    }
}

impl<V: Value + fmt::Debug> fmt::Debug for Map<V> {
    fn fmt(&self, f: &mut fmt::Formatter<'_>) -> fmt::Result {
        f.debug_map()
            .entries(self.iter().map(|(key, value)| (Text(key), value)))
            .finish()
    }
}

/// A key, printed as a literal of bytes.
pub(crate) struct Text(pub(crate) Vec<u8>);

impl fmt::Debug for Text {
    fn fmt(&self, f: &mut fmt::Formatter<'_>) -> fmt::Result {
        write!(f, "b\"{}\"", self.0.escape_ascii())
    }
}

/// It panics where a put is refused, as the standard library's maps do where memory is; [`Map::try_extend`] does not.
impl<K: AsRef<[u8]>, V: Value> Extend<(K, V)> for Map<V> {
    fn extend<I: IntoIterator<Item = (K, V)>>(&mut self, pairs: I) {
        self.try_extend(pairs).expect("a put into a map");
    }
}

/// It panics where a put is refused, as the standard library's maps do where memory is; [`Map::try_extend`] does not.
///
/// ```
/// let map: tambyulo::Map = [("a", 1), ("b", 2)].into_iter().collect();
/// assert_eq!(map.len(), 2);
/// ```
impl<K: AsRef<[u8]>, V: Value> FromIterator<(K, V)> for Map<V> {
    fn from_iter<I: IntoIterator<Item = (K, V)>>(pairs: I) -> Map<V> {
        let mut map = Map::new();
        map.extend(pairs);
        map
    }
}

impl<'a, V: Value> IntoIterator for &'a Map<V> {
    type Item = (Vec<u8>, V);
    type IntoIter = Iter<'a, V>;

    fn into_iter(self) -> Iter<'a, V> {
        self.iter()
    }
}

impl<V: Value> IntoIterator for Map<V> {
    type Item = (Vec<u8>, V);
    type IntoIter = IntoIter<V>;

    fn into_iter(self) -> IntoIter<V> {
        IntoIter::over(self.raw)
    }
}
