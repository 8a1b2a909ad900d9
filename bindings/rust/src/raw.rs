//! The memory of one map, and the calls on it: what is unsafe is in this file, behind a safe surface.

use crate::error::Error;
use crate::sys::{self, Answer, Page, Room};
use crate::value::Value;
use std::cell::UnsafeCell;
use std::marker::PhantomData;
use std::mem::size_of;

/// A map of the library's. It lies on the heap, so that it stays where it was made.
pub(crate) struct Raw<V: Value> {
    room: Box<UnsafeCell<Room>>,
    // A raw pointer keeps the type from being `Send` or `Sync` by itself.
    _of: PhantomData<(*mut Room, V)>,
}

// SAFETY: the library proves of its map that it may go to another thread (`maps_are_send` of `c_map`). It is not `Sync`: the
// library gives a map to one call at a time.
unsafe impl<V: Value> Send for Raw<V> {}

impl<V: Value> Raw<V> {
    /// A map with no pairs.
    pub(crate) fn new() -> Raw<V> {
        // SAFETY: the call takes nothing.
        let size = unsafe { V::size() };
        assert!(
            size <= size_of::<Room>(),
            "the library's maps are larger than this crate knows: the two are of different versions"
        );
        let raw = Raw {
            room: Box::new(UnsafeCell::new([0; 16])),
            _of: PhantomData,
        };
        // SAFETY: the memory is large enough and aligned to 8, and no map lies there yet.
        unsafe { V::init(raw.at()) };
        raw
    }

    /// Where the map lies. As `Raw` is not `Sync`, whoever has a reference to it is the only one that makes a call.
    fn at(&self) -> *mut Room {
        self.room.get()
    }

    pub(crate) fn len(&self) -> u64 {
        // SAFETY: a map lies there, and nobody else is in a call on it. So it is for each call below.
        unsafe { V::len(self.at()) }
    }

    pub(crate) fn limit(&mut self, most: u64) -> u64 {
        // SAFETY: as in `len`.
        unsafe { V::limit(self.at(), most) }
    }

    pub(crate) fn get(&self, key: &[u8]) -> Option<V> {
        // SAFETY: as in `len`; a slice's pointer is never null.
        unsafe { V::get(self.at(), key) }
    }

    pub(crate) fn contains(&self, key: &[u8]) -> bool {
        // SAFETY: as in `get`.
        unsafe { V::contains(self.at(), key) }
    }

    pub(crate) fn put(&mut self, key: &[u8], value: &V) -> Result<Option<V>, Error> {
        // SAFETY: as in `get`.
        self.write(key, |at| unsafe { V::put(at, key, value) })
    }

    pub(crate) fn put_if_absent(&mut self, key: &[u8], value: &V) -> Result<Option<V>, Error> {
        // SAFETY: as in `get`.
        self.write(key, |at| unsafe { V::put_if_absent(at, key, value) })
    }

    pub(crate) fn replace(&mut self, key: &[u8], value: &V) -> Result<Option<V>, Error> {
        // SAFETY: as in `get`.
        self.write(key, |at| unsafe { V::replace(at, key, value) })
    }

    pub(crate) fn remove(&mut self, key: &[u8]) -> Result<Option<V>, Error> {
        // SAFETY: as in `get`.
        self.write(key, |at| unsafe { V::remove(at, key) })
    }

    pub(crate) fn replace_if(&mut self, key: &[u8], old: &V, value: &V) -> Result<bool, Error> {
        // SAFETY: as in `get`.
        let answer = unsafe { V::replace_if(self.at(), key, old, value) };
        ended(answer).map(|()| answer.status == sys::FOUND)
    }

    pub(crate) fn remove_if(&mut self, key: &[u8], value: &V) -> Result<bool, Error> {
        // SAFETY: as in `get`.
        let answer = unsafe { V::remove_if(self.at(), key, value) };
        ended(answer).map(|()| answer.status == sys::FOUND)
    }

    /// A write whose answer has the value before. A text is got before it, since the answer has its length alone.
    fn write(&mut self, key: &[u8], call: impl FnOnce(*mut Room) -> Answer) -> Result<Option<V>, Error> {
        let found = if V::IS_GOT_FIRST { self.get(key) } else { None };
        let answer = call(self.at());
        ended(answer).map(|()| V::before(found, answer))
    }

    pub(crate) fn clear(&mut self) -> u64 {
        // SAFETY: as in `len`.
        unsafe { V::clear(self.at()) }
    }

    /// Another map with the same pairs.
    pub(crate) fn fork(&self) -> Result<Raw<V>, Error> {
        let fork = Raw::new();
        // SAFETY: a map lies at each, they are two, and nobody else is in a call on either.
        match unsafe { V::fork(self.at(), fork.at()) } {
            0 => Ok(fork),
            _ => Err(Error::NoMemory),
        }
    }

    pub(crate) fn page_from(&self, from: u64, buffer: &mut [u8]) -> Page {
        // SAFETY: as in `get`.
        unsafe { V::page_from(self.at(), from, buffer) }
    }

    pub(crate) fn count_prefix(&self, prefix: &[u8]) -> u64 {
        // SAFETY: as in `get`.
        unsafe { V::count_prefix(self.at(), prefix) }
    }
}

impl<V: Value> Drop for Raw<V> {
    fn drop(&mut self) {
        // SAFETY: a map lies there, and it is not used again.
        unsafe { V::drop(self.at()) }
    }
}

/// How a write ended.
fn ended(answer: Answer) -> Result<(), Error> {
    match answer.status {
        sys::ABSENT | sys::FOUND => Ok(()),
        sys::FULL => Err(Error::Full),
        _ => Err(Error::NoMemory),
    }
}
