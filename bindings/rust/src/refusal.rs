//! Why a call was refused.
use std::error::Error;
use std::fmt;

macro_rules! refusals {
    ($($number:literal $name:ident $sentence:literal)*) => {
        /// The cause for which a call was refused. It displays as a sentence on the cause and what to do about it.
        ///
        /// ```
        /// use gevrolen::{Network, Refusal};
        /// let refusal = Network::new().dummy(0).unwrap_err();
        /// assert_eq!(refusal, Refusal::NoState);
        /// assert_eq!(refusal.number(), 6);
        /// assert_eq!(refusal.to_string(), "The state is not well shaped, or was never set up: set it up, or load a saved one.");
        /// ```
        #[derive(Clone, Copy, Debug, PartialEq, Eq, PartialOrd, Ord, Hash)]
        #[non_exhaustive]
        pub enum Refusal {
            $(#[doc = $sentence] $name,)*
            /// A number that this version does not know.
            Unknown(u32),
        }

        impl Refusal {
            /// The refusal of a number; none for 0, which is accepted.
            pub fn from_number(number: u32) -> Option<Refusal> {
                match number {
                    0 => None,
                    $($number => Some(Refusal::$name),)*
                    _ => Some(Refusal::Unknown(number)),
                }
            }

            /// The specification's number.
            pub fn number(self) -> u32 {
                match self {
                    $(Refusal::$name => $number,)*
                    Refusal::Unknown(number) => number,
                }
            }
        }

        impl fmt::Display for Refusal {
            fn fmt(&self, f: &mut fmt::Formatter<'_>) -> fmt::Result {
                match self {
                    $(Refusal::$name => f.write_str($sentence),)*
                    Refusal::Unknown(number) => {
                        write!(f, "The number {number} is none that version {} knows: take crate and library of one version.", env!("CARGO_PKG_VERSION"))
                    }
                }
            }
        }
    };
}

refusals! {
    1 WrongSites "The sites are not 1 to 8: set up fewer, or another group for the rest."
    2 WrongItems "The items are not 1 to 64, or a list has another length: give a primary and a mask for each item."
    3 NoSuchPrimary "An item's primary is no site: correct it."
    4 WrongMask "An item's mask names a missing site or the primary itself: clear that bit."
    5 Cycle "The lines form a cycle: leave out a copy or move a primary, so that no site hears of itself."
    6 NoState "The state is not well shaped, or was never set up: set it up, or load a saved one."
    7 NoSuchSite "There is no such site: correct its number."
    8 WrongOperations "The operations are not 1 to 8, or their lists differ in length: split the commit, or mend the lists."
    9 UnknownOperation "An operation has an unknown kind or item: correct it."
    10 NoCopy "A read of an item that the site neither owns nor copies: read it where it is held."
    11 NotPrimary "A write of an item that another site owns: commit it there."
    12 HistoryFull "The history holds 256 commits: export it, run a round, then collect."
    13 LineFull "A line that would get a message holds 16: deliver and schedule at the child, then try again."
    14 CountFull "The site's own count, in a round any site's, is 4,294,967,295: export the history, then set up again."
    15 HasParents "The site has parents: raise the epoch at the sites without; it comes with their messages."
    16 EpochNotAbove "The new epoch is not above the present: take a higher one; where a round finds none above 4,294,967,295, export the history, then set up again."
    17 NoSuchLine "There is no such line: correct the two sites."
    18 NothingOnTheWay "Nothing is on the way: every message on the line has arrived."
    19 NoParents "The site has no parents: it never schedules."
    20 ParentSilent "A parent has nothing arrived: deliver from it, and where it has sent nothing let it send a dummy."
    21 NoFile "The bytes are under 16 or lack the mark: they do not end with a history file, or it is cut off at its end."
    22 WrongDistance "The distance is under 16 or above the length: the file is cut off or damaged."
    23 InvalidFile "The part is no valid file: it is damaged, take another copy."
    24 NoSuchRecord "There is no such record: the file has fewer."
    25 BufferTooShort "The buffer is too short for the file: lend a longer one."
    26 NoSuchRead "There is no such commit or operation in the history, or it is no read: correct the numbers."
}

impl Error for Refusal {}

/// What a call that answered a number gives.
pub(crate) fn answered<T>(number: u32, answer: impl FnOnce() -> T) -> Result<T, Refusal> {
    Refusal::from_number(number).map_or_else(|| Ok(answer()), Err)
}
