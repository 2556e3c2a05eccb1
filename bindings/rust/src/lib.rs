//! Gevrolen, a proved replication engine for groups of small houses, from Rust.
//!
//! A house (here: a site) owns some items and keeps copies of others'. It commits on its own and sends afterwards; what arrives is applied in timestamp order.
//!
//! ```
//! use gevrolen::{Network, Operation, Refusal};
//! # fn main() -> Result<(), Refusal> {
//! let mut network = Network::new();
//! // item 0 at site 0 with copies at 1 and 2, item 1 at site 1 with a copy at 2
//! network.set_up(3, 2, &[0, 1], &[0b110, 0b100])?;
//! network.commit(0, &[Operation::write(0, 5)])?;
//! network.deliver(0, 1)?;
//! network.schedule(1)?;
//! let answer = network.commit(1, &[Operation::read(0), Operation::write(1, 7)])?;
//! assert_eq!(answer.values, [5]);
//! assert_eq!(answer.stamp.to_string(), "0 0.1,1.1");
//! network.deliver(1, 2)?;
//! // nothing has arrived from site 0 at site 2
//! assert_eq!(network.schedule(2), Err(Refusal::ParentSilent));
//! # Ok(())
//! # }
//! ```
//!
//! Everything below this crate is proved code, reached through its C interface; a refusal is an answer, and leaves the state as it was. Every call is quick, keeps
//! nothing of its own and tests the state's shape first.
//!
//! The library is linked, so it may be of another version than the crate, with states of another size. [`check_library`] says so; [`Network::new`], and all that
//! makes a network or reads a file, panics with its sentence before any call is made.
#![warn(missing_debug_implementations, missing_docs)]

mod history;
mod network;
mod raw;
mod refusal;
mod saved;
mod types;
mod version;

pub use history::{read, record, records, File, Records};
pub use network::Network;
pub use refusal::Refusal;
pub use saved::{upgrade, LoadError};
pub use types::{compare, side_by_side, Base, Committed, Compared, Kind, Line, Operation, Origin, Places, Record, Scheduled, Stamp};
pub use version::{check_library, WrongLibrary, VERSION};

/// The words of a state.
pub const WORDS: usize = 28116;
/// The most sites.
pub const SITES: usize = 8;
/// The most items.
pub const ITEMS: usize = 64;
/// The most operations of a commit.
pub const OPERATIONS: usize = 8;
/// The most messages that a line holds.
pub const MESSAGES: usize = 16;
/// The most commits that a history holds.
pub const RECORDS: usize = 256;
/// The longest history file.
pub const FILE_BYTES: usize = 35096;
/// The bytes of a saved state.
pub const SAVED_BYTES: usize = 112484;

// the bytes lent for a line's answer, and for those of many lines
const ANSWER: usize = 512;
const ANSWERS: usize = 65536;
