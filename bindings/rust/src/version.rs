//! The version of the crate, and whether the library is of it.
use crate::{raw, WORDS};
use std::error::Error;
use std::fmt;
use std::sync::OnceLock;

/// The crate's version as one number: 800 is 0.8.0.
pub const VERSION: u32 = 800;

/// A version's number as text.
pub(crate) fn text(version: u32) -> String {
    format!("{}.{}.{}", version / 10000, version / 100 % 100, version % 100)
}

/// The library is of another version than the crate: its states or signatures may be others, and it would write past the end of a state.
#[derive(Clone, Copy, Debug, PartialEq, Eq)]
pub struct WrongLibrary {
    /// The library's version, as one number.
    pub version: u32,
    /// The words of its states.
    pub words: usize,
}

impl fmt::Display for WrongLibrary {
    fn fmt(&self, f: &mut fmt::Formatter<'_>) -> fmt::Result {
        let (library, crate_) = (text(self.version), text(VERSION));
        write!(
            f,
            "The library is of version {library}, with {} words in a state, and this is the crate of version {crate_}, with {WORDS}: take both from one build.",
            self.words
        )
    }
}

impl Error for WrongLibrary {}

/// Whether the library that was linked is of the crate's version, but for mended faults.
///
/// ```
/// assert_eq!(gevrolen::check_library(), Ok(()));
/// ```
pub fn check_library() -> Result<(), WrongLibrary> {
    static FOUND: OnceLock<Result<(), WrongLibrary>> = OnceLock::new();
    *FOUND.get_or_init(|| {
        // SAFETY: two calls without arguments, whose signatures no version changes.
        let (version, words) = unsafe { (raw::gevrolen_version(), raw::gevrolen_words()) };
        let same = (version / 100, words) == (VERSION / 100, WORDS);
        if same {
            Ok(())
        } else {
            Err(WrongLibrary { version, words })
        }
    })
}

/// Before a state or a struct is lent: a panic where the library is another.
pub(crate) fn assert_library() {
    if let Err(wrong) = check_library() {
        panic!("{wrong}");
    }
}
