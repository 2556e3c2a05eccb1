//! Timestamps, operations and answers.
use crate::raw;
use crate::version::assert_library;
use crate::SITES;
use std::cmp::Ordering;
use std::fmt;

/// A table of places: entry k is the place of site k in the order of sites, and a number that is no site is its own place. Timestamps are compared by places, not by
/// numbers; where every copy is at a higher-numbered site than its primary, the two are the same.
pub type Places = [u8; SITES];

/// A timestamp: an epoch and tuples of a site and its count, the places of the sites rising. It displays as a script prints it.
///
/// ```
/// # use gevrolen::Stamp;
/// let stamp = Stamp::new(0, &[(0, 1), (2, 1)]).unwrap();
/// assert_eq!(stamp.to_string(), "0 0.1,2.1");
/// assert_eq!(Stamp::new(0, &[(0, 1); 9]), None);
/// ```
#[derive(Clone, PartialEq, Eq, Hash, Default)]
pub struct Stamp {
    epoch: u32,
    tuples: Vec<(u32, u32)>,
}

impl Stamp {
    /// A timestamp of an epoch and at most eight tuples; none of more.
    pub fn new(epoch: u32, tuples: &[(u32, u32)]) -> Option<Stamp> {
        (tuples.len() <= SITES).then(|| Stamp { epoch, tuples: tuples.to_vec() })
    }

    /// Its epoch.
    pub fn epoch(&self) -> u32 {
        self.epoch
    }

    /// Sites and their counts.
    pub fn tuples(&self) -> &[(u32, u32)] {
        &self.tuples
    }

    pub(crate) fn of(raw: &raw::Stamp) -> Stamp {
        let tuples = raw.tuples[..raw.length as usize].iter().map(|t| (t.site, t.count)).collect();
        Stamp { epoch: raw.epoch, tuples }
    }

    fn raw(&self) -> raw::Stamp {
        let mut raw = raw::Stamp { epoch: self.epoch, length: self.tuples.len() as u32, ..Default::default() };
        for (place, &(site, count)) in raw.tuples.iter_mut().zip(&self.tuples) {
            *place = raw::Tuple { site, count };
        }
        raw
    }

    /// The epoch and each tuple as text.
    fn texts(&self) -> Vec<String> {
        let tuples = self.tuples.iter().map(|(site, count)| format!("{site}.{count}"));
        std::iter::once(format!("epoch {}", self.epoch)).chain(tuples).collect()
    }
}

impl fmt::Display for Stamp {
    fn fmt(&self, f: &mut fmt::Formatter<'_>) -> fmt::Result {
        write!(f, "{} ", self.epoch)?;
        for (k, (site, count)) in self.tuples.iter().enumerate() {
            write!(f, "{}{site}.{count}", if k == 0 { "" } else { "," })?;
        }
        Ok(())
    }
}

impl fmt::Debug for Stamp {
    fn fmt(&self, f: &mut fmt::Formatter<'_>) -> fmt::Result {
        write!(f, "Stamp({self})")
    }
}

/// What a comparison of two timestamps answers.
#[derive(Clone, Copy, Debug, PartialEq, Eq, Hash)]
pub struct Compared {
    /// `Less` where the first is earlier, `Greater` where it is later.
    pub order: Ordering,
    /// How many leading tuples are the same in both, site and count, up to the first that differ; none where the epochs differ.
    pub shared: Option<usize>,
}

/// Which of two timestamps is the earlier, and where they part: the lower epoch is earlier; with equal epochs the one that ends where they part, or has the site of the
/// higher place there, or of one site the lower count. The places are those of the network or the file from which the timestamps come ([`Network::places`],
/// [`File::places`]). Any table is taken: a number above seven is its own place, and of two sites at one place, as no order of sites has them, the higher-numbered is earlier.
///
/// ```
/// # use gevrolen::{compare, Compared, Stamp};
/// # use std::cmp::Ordering;
/// let stamp = |epoch, tuples: &[(u32, u32)]| Stamp::new(epoch, tuples).unwrap();
/// let places = [0, 1, 2, 3, 4, 5, 6, 7];
/// let first = stamp(0, &[(0, 1), (2, 1)]);
/// assert_eq!(compare(&first, &stamp(0, &[(0, 1), (1, 1)]), &places), Compared { order: Ordering::Less, shared: Some(1) });
/// assert_eq!(compare(&first, &stamp(0, &[(0, 1)]), &places), Compared { order: Ordering::Greater, shared: Some(1) });
/// assert_eq!(compare(&first, &stamp(1, &[(0, 1), (2, 1)]), &places), Compared { order: Ordering::Less, shared: None });
/// // in an order that has site 2 before site 1
/// assert_eq!(compare(&first, &stamp(0, &[(0, 1), (1, 1)]), &[0, 2, 1, 3, 4, 5, 6, 7]).order, Ordering::Greater);
/// ```
///
/// [`Network::places`]: crate::Network::places
/// [`File::places`]: crate::File::places
pub fn compare(first: &Stamp, second: &Stamp, places: &Places) -> Compared {
    assert_library();
    let mut answer = raw::Compared::default();
    // SAFETY: two structs of the header and places, only read, and a struct to write to.
    let order = unsafe { raw::gevrolen_compare(&first.raw(), &second.raw(), places, &mut answer) };
    Compared { order: order.cmp(&0), shared: (answer.epochs_differ == 0).then_some(answer.shared as usize) }
}

/// Two timestamps, compared by places, as text: the epochs on a line, then tuple by tuple. The line where they part has `<` between them where the first is earlier, `>` where
/// it is later.
///
/// ```
/// # use gevrolen::{side_by_side, Stamp};
/// let stamp = |tuples: &[(u32, u32)]| Stamp::new(0, tuples).unwrap();
/// let text = side_by_side(&stamp(&[(0, 1), (1, 1)]), &stamp(&[(0, 1), (2, 1), (3, 4)]), &[0, 1, 2, 3, 4, 5, 6, 7]);
/// let lines = [
///     "epoch 0   epoch 0",
///     "0.1       0.1",
///     "1.1     > 2.1",
///     "          3.4",
/// ];
/// assert_eq!(text, lines.join("\n"));
/// ```
pub fn side_by_side(first: &Stamp, second: &Stamp, places: &Places) -> String {
    let Compared { order, shared } = compare(first, second, places);
    let parting = shared.map_or(0, |count| count + 1); // behind the last line where they are equal
    let mark = if order == Ordering::Less { "<" } else { ">" };
    let (left, right) = (first.texts(), second.texts());
    let width = left.iter().map(String::len).max().unwrap_or(0);
    let line = |k| {
        let [first, second] = [&left, &right].map(|texts| texts.get(k).map_or("", String::as_str));
        let mark = if k == parting { mark } else { " " };
        format!("{first:width$} {mark} {second}").trim_end().to_string()
    };
    (0..left.len().max(right.len())).map(line).collect::<Vec<String>>().join("\n")
}

/// What an operation does.
#[derive(Clone, Copy, Debug, PartialEq, Eq, Hash)]
pub enum Kind {
    /// Gives the latest value written to the item before it in the commit, else the value from before the commit.
    Read,
    /// Sets the item's value.
    Write,
}

/// An operation of a commit. Lent, a read's value is ignored; in a record it is the value that the read gave.
#[derive(Clone, Copy, PartialEq, Eq, Hash)]
pub struct Operation {
    /// What it does.
    pub kind: Kind,
    /// The item's number.
    pub item: u32,
    /// The value written or read.
    pub value: i32,
}

impl Operation {
    /// A read of an item.
    pub fn read(item: u32) -> Operation {
        Operation { kind: Kind::Read, item, value: 0 }
    }

    /// A write of a value to an item.
    pub fn write(item: u32, value: i32) -> Operation {
        Operation { kind: Kind::Write, item, value }
    }

    pub(crate) fn raw(&self) -> raw::Operation {
        let kind = match self.kind {
            Kind::Read => 0,
            Kind::Write => 1,
        };
        raw::Operation { kind, item: self.item, value: self.value }
    }

    fn of(raw: &raw::Operation) -> Operation {
        let kind = if raw.kind == 0 { Kind::Read } else { Kind::Write };
        Operation { kind, item: raw.item, value: raw.value }
    }
}

/// As a record's line has it: `r0=5` read 5 from item 0, `w1=7` wrote 7 to item 1.
impl fmt::Display for Operation {
    fn fmt(&self, f: &mut fmt::Formatter<'_>) -> fmt::Result {
        let letter = match self.kind {
            Kind::Read => 'r',
            Kind::Write => 'w',
        };
        write!(f, "{letter}{}={}", self.item, self.value)
    }
}

impl fmt::Debug for Operation {
    fn fmt(&self, f: &mut fmt::Formatter<'_>) -> fmt::Result {
        write!(f, "Operation({self})")
    }
}

/// What a commit answers.
#[derive(Clone, Debug, PartialEq, Eq)]
pub struct Committed {
    /// The commit's timestamp, which is the site's now.
    pub stamp: Stamp,
    /// The values of its reads, in order.
    pub values: Vec<i32>,
}

impl Committed {
    pub(crate) fn of(raw: &raw::Committed) -> Committed {
        Committed { stamp: Stamp::of(&raw.stamp), values: raw.values[..raw.count as usize].to_vec() }
    }
}

/// What a schedule answers.
#[derive(Clone, Debug, PartialEq, Eq)]
pub struct Scheduled {
    /// The parent whose message was taken.
    pub parent: u32,
    /// The message's timestamp.
    pub stamp: Stamp,
}

/// A line between two sites.
#[derive(Clone, Copy, Debug, PartialEq, Eq)]
pub struct Line {
    /// How many messages it holds, on the way and arrived together.
    pub held: u32,
    /// How many of them have arrived.
    pub arrived: u32,
}

/// What the commits that collects have removed since set-up left.
#[derive(Clone, Debug, PartialEq, Eq)]
pub struct Base {
    /// Whether there are such commits.
    pub folded: bool,
    /// A value for each item; 0 where there are no such commits.
    pub values: Vec<i32>,
}

impl Base {
    pub(crate) fn of(raw: &raw::Base) -> Base {
        Base { folded: raw.folded != 0, values: raw.values[..raw.count as usize].to_vec() }
    }
}

/// Where the value of a read came from.
#[derive(Clone, Copy, Debug, PartialEq, Eq, Hash)]
#[non_exhaustive]
pub enum Origin {
    /// Neither its own commit before it nor a commit before that writes the item: it is the start value.
    Start,
    /// The history has no such commit, and a collect has removed a record since set-up, which may be the writer's: it is the base value.
    Folded,
    /// The commit of this record number: its own where it follows a write of the item there, else the last before that which writes the item.
    Commit(u32),
}

impl Origin {
    pub(crate) fn of(raw: &raw::Origin) -> Origin {
        match raw.kind {
            1 => Origin::Start,
            3 => Origin::Folded,
            _ => Origin::Commit(raw.record),
        }
    }
}

/// A record of a history. It displays as a line: site, epoch, tuples, operations, a read with the value that it gave.
#[derive(Clone, Debug, PartialEq, Eq)]
pub struct Record {
    /// The site that committed.
    pub site: u32,
    /// The commit's timestamp.
    pub stamp: Stamp,
    /// Its operations, in list order.
    pub operations: Vec<Operation>,
}

impl Record {
    pub(crate) fn of(raw: &raw::Record) -> Record {
        let operations = raw.operations[..raw.count as usize].iter().map(Operation::of).collect();
        Record { site: raw.site, stamp: Stamp::of(&raw.stamp), operations }
    }
}

impl fmt::Display for Record {
    fn fmt(&self, f: &mut fmt::Formatter<'_>) -> fmt::Result {
        write!(f, "{} {}", self.site, self.stamp)?;
        self.operations.iter().try_for_each(|operation| write!(f, " {operation}"))
    }
}
