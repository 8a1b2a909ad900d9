//! Walks over pairs.

use crate::raw::Raw;
use crate::value::Value;
use std::iter::FusedIterator;

/// How many bytes a page has room for: some hundred pairs. A larger pair gets a page of its own.
const ROOM: usize = 4096;

/// Where a walk is: the page that it reads, and what comes after it.
struct Pages {
    page: Vec<u8>,
    /// Where the next pair begins.
    at: usize,
    /// How many pairs of the page are left.
    pairs: u64,
    /// The number of the next page's first pair.
    from: u64,
    /// How many pairs are still to come.
    left: u64,
}

impl Pages {
    fn new(left: u64) -> Pages {
        Pages {
            page: Vec::new(),
            at: 0,
            pairs: 0,
            from: 0,
            left,
        }
    }

    /// The next pair of the map, which nobody writes during the walk.
    fn next<V: Value>(&mut self, map: &Raw<V>) -> Option<(Vec<u8>, V)> {
        if self.left == 0 {
            return None;
        }
        if self.pairs == 0 {
            self.turn(map)?;
        }
        let key_len = self.number() as usize;
        let number = self.number();
        let key = self.page[self.at..self.at + key_len].to_vec();
        self.at += key_len;
        let (value, len) = V::read(number, &self.page[self.at..]);
        self.at += len;
        self.pairs -= 1;
        self.left -= 1;
        Some((key, value))
    }

    /// Goes to the next page.
    fn turn<V: Value>(&mut self, map: &Raw<V>) -> Option<()> {
        if self.page.is_empty() {
            self.page.resize(ROOM, 0);
        }
        loop {
            let page = map.page_from(self.from, &mut self.page);
            if page.pairs > 0 {
                self.at = 0;
                self.pairs = page.pairs;
                self.from += page.pairs;
                return Some(());
            }
            if page.bytes == 0 {
                return None;
            }
            self.page.resize(page.bytes as usize, 0);
        }
    }

    /// The number that stands here in the page.
    fn number(&mut self) -> u64 {
        let mut bytes = [0; 8];
        bytes.copy_from_slice(&self.page[self.at..self.at + 8]);
        self.at += 8;
        u64::from_le_bytes(bytes)
    }
}

/// A walk over the pairs of a map or a snapshot that is borrowed meanwhile. The order is that of a hash, and the same for
/// maps with the same pairs.
pub struct Iter<'a, V: Value> {
    map: &'a Raw<V>,
    pages: Pages,
}

impl<'a, V: Value> Iter<'a, V> {
    pub(crate) fn over(map: &'a Raw<V>) -> Iter<'a, V> {
        Iter {
            pages: Pages::new(map.len()),
            map,
        }
    }
}

impl<V: Value> Iterator for Iter<'_, V> {
    type Item = (Vec<u8>, V);

    fn next(&mut self) -> Option<(Vec<u8>, V)> {
        self.pages.next(self.map)
    }

    fn size_hint(&self) -> (usize, Option<usize>) {
        (self.pages.left as usize, Some(self.pages.left as usize))
    }
}

impl<V: Value> ExactSizeIterator for Iter<'_, V> {}

impl<V: Value> FusedIterator for Iter<'_, V> {}

/// A walk over the pairs of a map or a snapshot that it owns.
pub struct IntoIter<V: Value> {
    map: Raw<V>,
    pages: Pages,
}

impl<V: Value> IntoIter<V> {
    pub(crate) fn over(map: Raw<V>) -> IntoIter<V> {
        IntoIter {
            pages: Pages::new(map.len()),
            map,
        }
    }
}

impl<V: Value> Iterator for IntoIter<V> {
    type Item = (Vec<u8>, V);

    fn next(&mut self) -> Option<(Vec<u8>, V)> {
        self.pages.next(&self.map)
    }

    fn size_hint(&self) -> (usize, Option<usize>) {
        (self.pages.left as usize, Some(self.pages.left as usize))
    }
}

impl<V: Value> ExactSizeIterator for IntoIter<V> {}

impl<V: Value> FusedIterator for IntoIter<V> {}
