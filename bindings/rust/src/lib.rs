//! A map from texts of any bytes, with snapshots that cost one call, whatever the number of pairs.
//!
//! ```
//! use tambyulo::Map;
//!
//! let mut map = Map::new();
//! map.put("apple", 5)?;
//! let before = map.snapshot()?;
//! map.put("apple", 6)?;
//! assert_eq!(map.get("apple"), Some(6));
//! assert_eq!(before.get("apple"), Some(5));
//! # Ok::<(), tambyulo::Error>(())
//! ```
//!
//! Keys are anything that can be seen as bytes. Values are numbers of 64 bits (`Map`, which is `Map<u64>`) or texts of any
//! bytes (`Map<Vec<u8>>`).
//!
//! - [`Map`] is a map of one owner. It is [`Send`], and has one caller at a time.
//! - [`Snapshot`] is a map as it stood at one moment. It goes to another thread, and is read there without a lock while the
//!   map is written.
//! - [`Shared`] is a map for several threads: writers take turns, and snapshots are read without a lock.
//!
//! The calls are those of a static library that is proved to meet its contracts. This crate is not proved: it is trusted to
//! keep what `tambyulo.h` asks of a caller. `docs/BINDINGS.md` says what rests on what.
//!
//! # Why a snapshot is not `Sync`
//!
//! The library's contract gives a map to one call at a time, also to a call that only reads. So two threads that read at once
//! take a snapshot each, by [`Snapshot::clone`], which costs one call:
//!
//! ```compile_fail,E0277
//! fn is_sync<T: Sync>() {}
//! is_sync::<tambyulo::Snapshot>();
//! ```
#![warn(missing_docs)]

mod error;
mod iter;
mod map;
mod raw;
mod shared;
mod snapshot;
mod sys;
mod value;

pub use error::Error;
pub use iter::{IntoIter, Iter};
pub use map::Map;
pub use shared::Shared;
pub use snapshot::Snapshot;
pub use value::Value;

/// How many pairs a map may have at most.
pub const MOST_PAIRS: u64 = 16_777_216;
