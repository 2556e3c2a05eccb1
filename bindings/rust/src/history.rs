//! Reading a history file, from a buffer that it may end.
use crate::raw;
use crate::refusal::answered;
use crate::version::assert_library;
use crate::{Base, Places, Record, Refusal, SITES};
use std::fmt;
use std::iter::FusedIterator;

/// An accepted history file.
#[derive(Clone, Debug, PartialEq, Eq)]
pub struct File {
    /// Where its records start in the buffer.
    pub start: usize,
    /// How many bytes they take.
    pub length: usize,
    /// How many records there are.
    pub records: usize,
    /// How many sites the network had.
    pub sites: u32,
    /// How many items the network had.
    pub items: u32,
    /// The places of its sites, by which the timestamps of the records are compared.
    pub places: Places,
    /// What commits that collects had removed left: the records go on from it.
    pub base: Base,
}

impl fmt::Display for File {
    fn fmt(&self, f: &mut fmt::Formatter<'_>) -> fmt::Result {
        write!(f, "{} records of {} sites and {} items", self.records, self.sites, self.items)
    }
}

/// Checks the file that ends a buffer. 21 to 23.
pub fn read(buffer: &[u8]) -> Result<File, Refusal> {
    assert_library();
    let mut answer = raw::File::default();
    let mut places = [0; SITES];
    let mut base = raw::Base::default();
    // SAFETY: a list that is only read, two structs of the header and places to write to.
    let number = unsafe { raw::gevrolen_read(buffer.as_ptr(), buffer.len(), &mut answer, &mut places, &mut base) };
    let raw::File { start, length, records, sites, items } = answer;
    answered(number, || File { start, length, records, sites: sites as u32, items: items as u32, places, base: Base::of(&base) })
}

/// The record of a number, from 0, of the file that ends a buffer; the whole file is checked each time. 21 to 24.
pub fn record(buffer: &[u8], number: usize) -> Result<Record, Refusal> {
    assert_library();
    let mut answer = raw::Record::default();
    // SAFETY: a list that is only read, and a struct of the header to write to.
    let told = unsafe { raw::gevrolen_record(buffer.as_ptr(), buffer.len(), number, &mut answer) };
    answered(told, || Record::of(&answer))
}

/// All records of the file that ends a buffer, one after another: the file is checked once, then each record as it is read. 21 to 23.
///
/// ```
/// # use gevrolen::{records, Network, Operation};
/// # fn main() -> Result<(), gevrolen::Refusal> {
/// let mut network = Network::new();
/// network.set_up(3, 2, &[0, 1], &[6, 4])?;
/// network.commit(0, &[Operation::write(0, 5)])?;
/// network.commit(0, &[Operation::read(0), Operation::write(0, 4)])?;
/// let lines: Vec<String> = records(&network.export()?)?.map(|record| record.to_string()).collect();
/// assert_eq!(lines, ["0 0 0.1 w0=5", "0 0 0.2 r0=5 w0=4"]);
/// # Ok(())
/// # }
/// ```
pub fn records(buffer: &[u8]) -> Result<Records<'_>, Refusal> {
    let file = read(buffer)?;
    let part = &buffer[file.start..file.start + file.length];
    Ok(Records { part, from: 0, left: file.records, file })
}

/// The records of an accepted file.
#[derive(Clone, Debug)]
pub struct Records<'a> {
    part: &'a [u8],
    from: usize,
    left: usize,
    file: File,
}

impl Iterator for Records<'_> {
    type Item = Record;

    fn next(&mut self) -> Option<Record> {
        let mut answer = raw::Record::default();
        let mut next = 0;
        let File { sites, items, places, .. } = self.file;
        // SAFETY: a list and places that are only read, a struct of the header and a size to write to.
        let number = unsafe { raw::gevrolen_record_from(self.part.as_ptr(), self.part.len(), self.from, sites, items, &places, &mut answer, &mut next) };
        if number != 0 {
            return None;
        }
        self.from = next;
        self.left -= 1;
        Some(Record::of(&answer))
    }

    fn size_hint(&self) -> (usize, Option<usize>) {
        (self.left, Some(self.left))
    }
}

impl ExactSizeIterator for Records<'_> {}

impl FusedIterator for Records<'_> {}
