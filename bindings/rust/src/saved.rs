//! Saved states: the mark, the version, the number of words, the words, and the CRC-32 of all that; a number has four bytes, the lowest first.
use crate::version::{text, VERSION};
use crate::{ITEMS, SAVED_BYTES, WORDS};
use std::error::Error;
use std::fmt;

const MARK: &[u8] = b"GEVSTATE";
const LEAD: usize = 16;

/// The words of a state before it had a base.
const BEFORE_BASE: usize = WORDS - 1 - ITEMS;

/// Why bytes are not loaded. It displays as a sentence, which names both versions where they differ.
#[derive(Clone, Copy, Debug, PartialEq, Eq)]
#[non_exhaustive]
pub enum LoadError {
    /// They are no saved state.
    NotSaved,
    /// The saved state is damaged or cut off.
    Damaged,
    /// It was saved by this version, which the crate cannot bring over.
    OtherVersion(u32),
    /// Of an upgrade: they are no state of the crate's version or one before it.
    NoVersion,
}

impl fmt::Display for LoadError {
    fn fmt(&self, f: &mut fmt::Formatter<'_>) -> fmt::Result {
        let here = text(VERSION);
        match *self {
            LoadError::NotSaved => f.write_str("The bytes are no saved state: take those that save gave, or bring older ones over by upgrade."),
            LoadError::Damaged => f.write_str("The saved state is damaged or cut off: take the one before it."),
            LoadError::OtherVersion(version) => {
                let there = text(version);
                write!(f, "The state was saved by version {there}, and this is version {here}, which cannot bring it over: take the library of that version.")
            }
            LoadError::NoVersion => write!(f, "The bytes are no state of version {here} or one before it: they are damaged, or of a later version."),
        }
    }
}

impl Error for LoadError {}

/// A state that this version or one before it saved, as this version saves it. Taken are what [`Network::save`] gave, the bare words of version 0.7, and those from before a
/// state had a base, which gets zeros.
///
/// ```
/// # use gevrolen::{upgrade, LoadError, Network, WORDS};
/// # fn main() -> Result<(), Box<dyn std::error::Error>> {
/// let mut network = Network::new();
/// network.set_up(2, 1, &[0], &[0b10])?;
/// let bare: Vec<u8> = network.as_words().iter().flat_map(|word| word.to_le_bytes()).collect();
/// assert_eq!(upgrade(&bare)?, network.save());
/// assert_eq!(upgrade(&bare[..4 * (WORDS - 65)])?, network.save());
/// assert_eq!(upgrade(&bare[1..]), Err(LoadError::NoVersion));
/// # Ok(())
/// # }
/// ```
///
/// [`Network::save`]: crate::Network::save
pub fn upgrade(old: &[u8]) -> Result<Vec<u8>, LoadError> {
    // who changes what the words mean adds the step from the version before here, and in the other bindings
    if old.starts_with(MARK) {
        return Ok(closed(words_of(old)?));
    }
    if old.len() != 4 * WORDS && old.len() != 4 * BEFORE_BASE {
        return Err(LoadError::NoVersion);
    }
    Ok(closed(old))
}

/// The saved form of words.
pub(crate) fn saved(words: &[u32; WORDS]) -> Vec<u8> {
    let bytes: Vec<u8> = words.iter().flat_map(|word| word.to_le_bytes()).collect();
    closed(&bytes)
}

/// The bytes of words with mark, version, number and sum around them, and zeros behind where they are fewer than a state has.
fn closed(words: &[u8]) -> Vec<u8> {
    let mut saved = [MARK, &VERSION.to_le_bytes(), &(WORDS as u32).to_le_bytes(), words].concat();
    saved.resize(SAVED_BYTES - 4, 0);
    let sum = sum(&saved);
    saved.extend_from_slice(&sum.to_le_bytes());
    saved
}

/// The bytes of the words of a saved state, once mark, length, sum and version are seen to be right.
pub(crate) fn words_of(saved: &[u8]) -> Result<&[u8], LoadError> {
    if saved.len() < LEAD + 4 || !saved.starts_with(MARK) {
        return Err(LoadError::NotSaved);
    }
    let (version, count, end) = (number(saved, 8), number(saved, 12) as usize, saved.len() - 4);
    if end != LEAD + 4 * count || sum(&saved[..end]) != number(saved, end) {
        return Err(LoadError::Damaged);
    }
    if (version / 100, count) != (VERSION / 100, WORDS) {
        return Err(LoadError::OtherVersion(version));
    }
    Ok(&saved[LEAD..end])
}

fn number(bytes: &[u8], at: usize) -> u32 {
    u32::from_le_bytes([bytes[at], bytes[at + 1], bytes[at + 2], bytes[at + 3]])
}

/// The CRC-32.
fn sum(bytes: &[u8]) -> u32 {
    const OF_FOUR_BITS: [u32; 16] = [
        0x00000000, 0x1db71064, 0x3b6e20c8, 0x26d930ac, 0x76dc4190, 0x6b6b51f4, 0x4db26158, 0x5005713c, 0xedb88320, 0xf00f9344, 0xd6d6a3e8, 0xcb61b38c,
        0x9b64c2b0, 0x86d3d2d4, 0xa00ae278, 0xbdbdf21c,
    ];
    let shifted = |sum: u32| sum >> 4 ^ OF_FOUR_BITS[sum as usize & 15];
    !bytes.iter().fold(!0, |sum, &byte| shifted(shifted(sum ^ u32::from(byte))))
}
