//! What a map's values may be.

use crate::sys;

/// A value of a map: a number of 64 bits, or a text of any bytes.
///
/// The library has a map for each of the two, and so this trait is for no other type.
pub trait Value: Sized + calls::Calls {}

impl Value for u64 {}
impl Value for Vec<u8> {}

/// The calls of the library on a map of such values.
///
/// Each is unsafe, and asks for the same: a map of these values lies at each pointer (for `init`, room for one does), nobody
/// else is in a call on it, and the two of a fork are two.
pub mod calls {
    use super::sys::{self, Answer, Page, Room};

    #[allow(missing_docs)]
    pub trait Calls: Sized {
        unsafe fn size() -> usize;
        unsafe fn init(map: *mut Room);
        unsafe fn drop(map: *mut Room);
        unsafe fn len(map: *mut Room) -> u64;
        unsafe fn limit(map: *mut Room, most: u64) -> u64;
        unsafe fn get(map: *mut Room, key: &[u8]) -> Option<Self>;
        unsafe fn contains(map: *mut Room, key: &[u8]) -> bool;
        /// Of a write, the answer that the library gives.
        unsafe fn put(map: *mut Room, key: &[u8], value: &Self) -> Answer;
        unsafe fn put_if_absent(map: *mut Room, key: &[u8], value: &Self) -> Answer;
        unsafe fn replace(map: *mut Room, key: &[u8], value: &Self) -> Answer;
        unsafe fn replace_if(map: *mut Room, key: &[u8], old: &Self, value: &Self) -> Answer;
        unsafe fn remove(map: *mut Room, key: &[u8]) -> Answer;
        unsafe fn remove_if(map: *mut Room, key: &[u8], value: &Self) -> Answer;
        unsafe fn clear(map: *mut Room) -> u64;
        unsafe fn fork(source: *mut Room, target: *mut Room) -> u64;
        unsafe fn page_from(map: *mut Room, from: u64, buffer: &mut [u8]) -> Page;
        unsafe fn count_prefix(map: *mut Room, prefix: &[u8]) -> u64;
        /// The value before a write, which `get` found, or else the answer's number shows.
        fn before(found: Option<Self>, answer: Answer) -> Option<Self>;
        /// Whether the value before is to be got before a write.
        const IS_GOT_FIRST: bool;
        /// A value from what a page has of it, and how many bytes it has there beside the number.
        fn read(number: u64, bytes: &[u8]) -> (Self, usize);
    }

    impl Calls for u64 {
        const IS_GOT_FIRST: bool = false;

        unsafe fn size() -> usize {
            sys::tambyulo_size()
        }

        unsafe fn init(map: *mut Room) {
            sys::tambyulo_init(map)
        }

        unsafe fn drop(map: *mut Room) {
            sys::tambyulo_drop(map)
        }

        unsafe fn len(map: *mut Room) -> u64 {
            sys::tambyulo_len(map)
        }

        unsafe fn limit(map: *mut Room, most: u64) -> u64 {
            sys::tambyulo_limit(map, most)
        }

        unsafe fn get(map: *mut Room, key: &[u8]) -> Option<u64> {
            let answer = sys::tambyulo_get(map, key.as_ptr(), key.len());
            (answer.status == sys::FOUND).then_some(answer.value)
        }

        unsafe fn contains(map: *mut Room, key: &[u8]) -> bool {
            sys::tambyulo_get(map, key.as_ptr(), key.len()).status == sys::FOUND
        }

        unsafe fn put(map: *mut Room, key: &[u8], value: &u64) -> Answer {
            sys::tambyulo_put(map, key.as_ptr(), key.len(), *value)
        }

        unsafe fn put_if_absent(map: *mut Room, key: &[u8], value: &u64) -> Answer {
            sys::tambyulo_put_if_absent(map, key.as_ptr(), key.len(), *value)
        }

        unsafe fn replace(map: *mut Room, key: &[u8], value: &u64) -> Answer {
            sys::tambyulo_replace(map, key.as_ptr(), key.len(), *value)
        }

        unsafe fn replace_if(map: *mut Room, key: &[u8], old: &u64, value: &u64) -> Answer {
            sys::tambyulo_replace_if(map, key.as_ptr(), key.len(), *old, *value)
        }

        unsafe fn remove(map: *mut Room, key: &[u8]) -> Answer {
            sys::tambyulo_remove(map, key.as_ptr(), key.len())
        }

        unsafe fn remove_if(map: *mut Room, key: &[u8], value: &u64) -> Answer {
            sys::tambyulo_remove_if(map, key.as_ptr(), key.len(), *value)
        }

        unsafe fn clear(map: *mut Room) -> u64 {
            sys::tambyulo_clear(map)
        }

        unsafe fn fork(source: *mut Room, target: *mut Room) -> u64 {
            sys::tambyulo_fork(source, target)
        }

        unsafe fn page_from(map: *mut Room, from: u64, buffer: &mut [u8]) -> Page {
            sys::tambyulo_page_from(map, from, buffer.as_mut_ptr(), buffer.len())
        }

        unsafe fn count_prefix(map: *mut Room, prefix: &[u8]) -> u64 {
            sys::tambyulo_count_prefix(map, prefix.as_ptr(), prefix.len())
        }

        fn before(_found: Option<u64>, answer: Answer) -> Option<u64> {
            (answer.status == sys::FOUND).then_some(answer.value)
        }

        fn read(number: u64, _bytes: &[u8]) -> (u64, usize) {
            (number, 0)
        }
    }

    impl Calls for Vec<u8> {
        const IS_GOT_FIRST: bool = true;

        unsafe fn size() -> usize {
            sys::tambyulo_texts_size()
        }

        unsafe fn init(map: *mut Room) {
            sys::tambyulo_texts_init(map)
        }

        unsafe fn drop(map: *mut Room) {
            sys::tambyulo_texts_drop(map)
        }

        unsafe fn len(map: *mut Room) -> u64 {
            sys::tambyulo_texts_len(map)
        }

        unsafe fn limit(map: *mut Room, most: u64) -> u64 {
            sys::tambyulo_texts_limit(map, most)
        }

        unsafe fn get(map: *mut Room, key: &[u8]) -> Option<Vec<u8>> {
            let mut value = vec![0; 64];
            loop {
                let room = value.len();
                let answer = sys::tambyulo_texts_get(map, key.as_ptr(), key.len(), value.as_mut_ptr(), room);
                if answer.status != sys::FOUND {
                    return None;
                }
                let len = answer.value as usize;
                value.resize(len, 0);
                if len <= room {
                    return Some(value);
                }
            }
        }

        unsafe fn contains(map: *mut Room, key: &[u8]) -> bool {
            let mut none = [];
            let at = none.as_mut_ptr();
            sys::tambyulo_texts_get(map, key.as_ptr(), key.len(), at, 0).status == sys::FOUND
        }

        unsafe fn put(map: *mut Room, key: &[u8], value: &Vec<u8>) -> Answer {
            sys::tambyulo_texts_put(map, key.as_ptr(), key.len(), value.as_ptr(), value.len())
        }

        unsafe fn put_if_absent(map: *mut Room, key: &[u8], value: &Vec<u8>) -> Answer {
            let (at, len) = (value.as_ptr(), value.len());
            sys::tambyulo_texts_put_if_absent(map, key.as_ptr(), key.len(), at, len)
        }

        unsafe fn replace(map: *mut Room, key: &[u8], value: &Vec<u8>) -> Answer {
            sys::tambyulo_texts_replace(map, key.as_ptr(), key.len(), value.as_ptr(), value.len())
        }

        unsafe fn replace_if(map: *mut Room, key: &[u8], old: &Vec<u8>, value: &Vec<u8>) -> Answer {
            let (old_at, old_len) = (old.as_ptr(), old.len());
            let (at, len) = (value.as_ptr(), value.len());
            sys::tambyulo_texts_replace_if(map, key.as_ptr(), key.len(), old_at, old_len, at, len)
        }

        unsafe fn remove(map: *mut Room, key: &[u8]) -> Answer {
            sys::tambyulo_texts_remove(map, key.as_ptr(), key.len())
        }

        unsafe fn remove_if(map: *mut Room, key: &[u8], value: &Vec<u8>) -> Answer {
            let (at, len) = (value.as_ptr(), value.len());
            sys::tambyulo_texts_remove_if(map, key.as_ptr(), key.len(), at, len)
        }

        unsafe fn clear(map: *mut Room) -> u64 {
            sys::tambyulo_texts_clear(map)
        }

        unsafe fn fork(source: *mut Room, target: *mut Room) -> u64 {
            sys::tambyulo_texts_fork(source, target)
        }

        unsafe fn page_from(map: *mut Room, from: u64, buffer: &mut [u8]) -> Page {
            sys::tambyulo_texts_page_from(map, from, buffer.as_mut_ptr(), buffer.len())
        }

        unsafe fn count_prefix(map: *mut Room, prefix: &[u8]) -> u64 {
            sys::tambyulo_texts_count_prefix(map, prefix.as_ptr(), prefix.len())
        }

        fn before(found: Option<Vec<u8>>, _answer: Answer) -> Option<Vec<u8>> {
            found
        }

        fn read(number: u64, bytes: &[u8]) -> (Vec<u8>, usize) {
            let len = number as usize;
            (bytes[..len].to_vec(), len)
        }
    }
}
