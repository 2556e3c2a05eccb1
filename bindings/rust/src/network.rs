//! A network that owns its state, and every call on it.
use crate::raw;
use crate::refusal::answered;
use crate::saved;
use crate::version::assert_library;
use crate::{Base, Committed, Line, LoadError, Operation, Origin, Places, Refusal, Scheduled, Stamp};
use crate::{ANSWERS, FILE_BYTES, ITEMS, SITES, WORDS};
use std::fmt;

/// An owner of a state: sites, their tables, the lines between them and the history. A refused call leaves it as it was.
///
/// It debug-prints as a person would list it:
///
/// ```
/// # use gevrolen::{Network, Operation};
/// # fn main() -> Result<(), gevrolen::Refusal> {
/// let mut network = Network::new();
/// assert_eq!(format!("{network:?}"), "Network: never set up, or not well shaped");
/// network.set_up(3, 2, &[0, 1], &[6, 4])?;
/// network.commit(0, &[Operation::write(0, 5)])?;
/// network.deliver(0, 1)?;
/// assert_eq!(format!("{network:?}"), "\
/// Network: 3 sites, 2 items
///   site 0 at 0 0.1: [5, 0]
///   site 1 at 0 1.0: [0, 0]
///   site 2 at 0 2.0: [0, 0]
///   line 0 to 1: 1 held, 1 arrived
///   line 0 to 2: 1 held, 0 arrived
///   line 1 to 2: 0 held, 0 arrived");
/// # Ok(())
/// # }
/// ```
#[derive(Clone)]
pub struct Network {
    words: Box<[u32; WORDS]>,
}

impl Network {
    /// A state that was never set up. Where the library is of another version than the crate, it panics ([`check_library`](crate::check_library)).
    pub fn new() -> Network {
        assert_library();
        let words = vec![0; WORDS].into_boxed_slice();
        Network { words: words.try_into().expect("as many words as a state has") }
    }

    /// A state from words that were saved; any words will do, since every call tests them.
    pub fn from_words(words: &[u32; WORDS]) -> Network {
        let mut network = Network::new();
        network.words.copy_from_slice(words);
        network
    }

    /// The bare words of the state; [`save`](Network::save) gives them with their version.
    pub fn as_words(&self) -> &[u32; WORDS] {
        &self.words
    }

    /// The state with its version and a sum, to be written to a file; the bytes are the same as those of the other bindings.
    ///
    /// ```
    /// # use gevrolen::{upgrade, LoadError, Network};
    /// # fn main() -> Result<(), Box<dyn std::error::Error>> {
    /// let mut network = Network::new();
    /// network.set_up(2, 1, &[0], &[0b10])?;
    /// let mut saved = network.save();
    /// assert_eq!(Network::load(&saved)?.as_words(), network.as_words());
    /// saved[20] ^= 1;
    /// assert_eq!(Network::load(&saved).unwrap_err(), LoadError::Damaged);
    /// # Ok(())
    /// # }
    /// ```
    pub fn save(&self) -> Vec<u8> {
        saved::saved(&self.words)
    }

    /// The network that [`save`](Network::save) saved. Bytes of another version are refused, and damaged ones.
    pub fn load(bytes: &[u8]) -> Result<Network, LoadError> {
        let mut network = Network::new();
        for (word, four) in network.words.iter_mut().zip(saved::words_of(bytes)?.chunks_exact(4)) {
            *word = u32::from_le_bytes([four[0], four[1], four[2], four[3]]);
        }
        Ok(network)
    }

    /// Starts a group anew: for each item its primary site and its mask of copies, in which the bit of weight 2 to the power k names site k. Copies may be at any other
    /// sites, as long as the lines form no cycle. 1 to 5.
    pub fn set_up(&mut self, sites: u32, items: u32, primaries: &[u32], masks: &[u8]) -> Result<(), Refusal> {
        let words = &mut *self.words;
        // SAFETY: the state is this network's own; the lists are only read.
        let number = unsafe { raw::gevrolen_set_up(words, sites, items, primaries.as_ptr(), primaries.len(), masks.as_ptr(), masks.len()) };
        answered(number, || ())
    }

    /// A commit of 1 to 8 operations at a site, in list order: a read that follows a write of the same item gives the value written, the latest where there are more;
    /// every other read gives the value from before the commit. 6 to 14.
    ///
    /// ```
    /// # use gevrolen::{Network, Operation};
    /// # fn main() -> Result<(), gevrolen::Refusal> {
    /// let mut network = Network::new();
    /// network.set_up(1, 1, &[0], &[0])?;
    /// network.commit(0, &[Operation::write(0, 5)])?;
    /// let answer = network.commit(0, &[Operation::read(0), Operation::write(0, 4), Operation::read(0)])?;
    /// assert_eq!(answer.values, [5, 4]);
    /// # Ok(())
    /// # }
    /// ```
    pub fn commit(&mut self, site: u32, operations: &[Operation]) -> Result<Committed, Refusal> {
        let lent: Vec<raw::Operation> = operations.iter().map(Operation::raw).collect();
        let mut answer = raw::Committed::default();
        // SAFETY: as for `set_up`; the answer is a struct of the header to write to. So in all calls below.
        let number = unsafe { raw::gevrolen_commit(&mut *self.words, site, lent.as_ptr(), lent.len(), &mut answer) };
        answered(number, || Committed::of(&answer))
    }

    /// A commit by separate lists of kinds (0 reads, 1 writes), items and values, refused by 8 where their lengths differ. 6 to 14.
    pub fn commit_lists(&mut self, site: u32, kinds: &[u8], items: &[u32], values: &[i32]) -> Result<Committed, Refusal> {
        let mut answer = raw::Committed::default();
        let number = unsafe {
            raw::gevrolen_commit_lists(
                &mut *self.words,
                site,
                kinds.as_ptr(),
                kinds.len(),
                items.as_ptr(),
                items.len(),
                values.as_ptr(),
                values.len(),
                &mut answer,
            )
        };
        answered(number, || Committed::of(&answer))
    }

    /// A commit without operations: it raises the site's count and goes to every child. 6, 7, 13, 14.
    pub fn dummy(&mut self, site: u32) -> Result<Stamp, Refusal> {
        let mut answer = raw::Stamp::default();
        let number = unsafe { raw::gevrolen_dummy(&mut *self.words, site, &mut answer) };
        answered(number, || Stamp::of(&answer))
    }

    /// A higher epoch for a site without parents. 6, 7, 15, 16.
    pub fn epoch(&mut self, site: u32, number: u32) -> Result<(), Refusal> {
        let told = unsafe { raw::gevrolen_epoch(&mut *self.words, site, number) };
        answered(told, || ())
    }

    /// The oldest message on the way from parent to child arrives. 6, 7, 17, 18.
    pub fn deliver(&mut self, parent: u32, child: u32) -> Result<(), Refusal> {
        let number = unsafe { raw::gevrolen_deliver(&mut *self.words, parent, child) };
        answered(number, || ())
    }

    /// The site takes the earliest of the oldest arrived messages of its parents and applies it. 6, 7, 19, 20.
    pub fn schedule(&mut self, site: u32) -> Result<Scheduled, Refusal> {
        let mut answer = raw::Scheduled::default();
        let number = unsafe { raw::gevrolen_schedule(&mut *self.words, site, &mut answer) };
        answered(number, || Scheduled { parent: answer.parent, stamp: Stamp::of(&answer.stamp) })
    }

    /// Folds every commit that is not later than the earliest of all sites' timestamps into the base values, by rising timestamp, equal ones in the order made, removes its
    /// record and answers how many it removed, which may be none. Their room is free then; the records kept are numbered from 0, in the order made. 6, also where a message
    /// on a line names a commit to be folded, to which no steps from a set-up lead.
    ///
    /// ```
    /// # use gevrolen::{Network, Operation, Origin};
    /// # fn main() -> Result<(), gevrolen::Refusal> {
    /// let mut network = Network::new();
    /// network.set_up(2, 1, &[0], &[0b10])?;
    /// network.commit(0, &[Operation::write(0, 5)])?;
    /// assert_eq!(network.collect()?, 0); // site 1 has not heard of it
    /// network.deliver(0, 1)?;
    /// network.schedule(1)?;
    /// assert_eq!(network.collect()?, 1);
    /// assert_eq!(network.base()?.values, [5]);
    /// network.commit(1, &[Operation::read(0)])?;
    /// assert_eq!(network.origin(0, 0)?, Origin::Folded);
    /// # Ok(())
    /// # }
    /// ```
    pub fn collect(&mut self) -> Result<u32, Refusal> {
        let mut removed = 0;
        let number = unsafe { raw::gevrolen_collect(&mut *self.words, &mut removed) };
        answered(number, || removed)
    }

    /// Lets every site hear: every site without parents gets an epoch one above the greatest at any site; then, in the order of places, all lines into a site are delivered,
    /// it schedules until refused, and it sends a dummy. It answers the new epoch. In a state that calls led to from a set-up every commit made before it is applied at all
    /// its copies then. 6; 13 where a line holds 16 messages, 14 where a site's own count is at its largest, 16 where the greatest epoch is 4,294,967,295.
    ///
    /// ```
    /// # use gevrolen::{Network, Operation};
    /// # fn main() -> Result<(), gevrolen::Refusal> {
    /// let mut network = Network::new();
    /// network.set_up(3, 2, &[0, 1], &[0b110, 0b100])?;
    /// network.commit(0, &[Operation::write(0, 5)])?;
    /// network.commit(1, &[Operation::write(1, 7)])?;
    /// assert_eq!(network.round()?, 1);
    /// assert_eq!(network.table(2)?, [5, 7]);
    /// assert_eq!(network.collect()?, 2); // a collect straight after it removes all
    /// # Ok(())
    /// # }
    /// ```
    pub fn round(&mut self) -> Result<u32, Refusal> {
        let mut epoch = 0;
        let number = unsafe { raw::gevrolen_round(&mut *self.words, &mut epoch) };
        answered(number, || epoch)
    }

    /// The items that messages on the lines into a site write, arrived or not, and that it has a copy of, each once: by the timestamp of the earliest of the messages that
    /// write the item, those of equal timestamps by number. 6, 7.
    ///
    /// ```
    /// # use gevrolen::{Network, Operation};
    /// # fn main() -> Result<(), gevrolen::Refusal> {
    /// let mut network = Network::new();
    /// network.set_up(3, 4, &[0, 0, 1, 0], &[4, 4, 4, 4])?;
    /// network.commit(0, &[Operation::write(3, 5), Operation::write(1, 5)])?; // at 0.1
    /// network.commit(0, &[Operation::write(0, 5), Operation::write(3, 4)])?; // at 0.2
    /// network.commit(1, &[Operation::write(2, 5)])?; // at 1.1, which is earlier than 0.1
    /// assert_eq!(network.waiting(2)?, [2, 1, 3, 0]);
    /// # Ok(())
    /// # }
    /// ```
    pub fn waiting(&self, site: u32) -> Result<Vec<u32>, Refusal> {
        let mut answer = raw::Report { count: 0, items: [0; ITEMS] };
        let number = unsafe { raw::gevrolen_waiting(&*self.words, site, &mut answer) };
        answered(number, || answer.items[..answer.count as usize].to_vec())
    }

    /// A site's value for each item, 0 for one that it does not hold. 6, 7.
    pub fn table(&self, site: u32) -> Result<Vec<i32>, Refusal> {
        let mut answer = raw::Table { count: 0, values: [0; ITEMS] };
        let number = unsafe { raw::gevrolen_table(&*self.words, site, &mut answer) };
        answered(number, || answer.values[..answer.count as usize].to_vec())
    }

    /// A site's timestamp. 6, 7.
    pub fn stamp(&self, site: u32) -> Result<Stamp, Refusal> {
        let mut answer = raw::Stamp::default();
        let number = unsafe { raw::gevrolen_stamp(&*self.words, site, &mut answer) };
        answered(number, || Stamp::of(&answer))
    }

    /// The line from parent to child. 6, 7, 17.
    pub fn line(&self, parent: u32, child: u32) -> Result<Line, Refusal> {
        let mut answer = raw::Line::default();
        let number = unsafe { raw::gevrolen_line(&*self.words, parent, child, &mut answer) };
        answered(number, || Line { held: answer.held, arrived: answer.arrived })
    }

    /// The places of the sites, by which the network's timestamps are compared: again and again the lowest-numbered site whose parents all have their place. 6.
    ///
    /// ```
    /// # use gevrolen::{compare, Network, Refusal, Stamp};
    /// # use std::cmp::Ordering;
    /// # fn main() -> Result<(), gevrolen::Refusal> {
    /// let mut network = Network::new();
    /// // site 2 joined late and owns item 0, which both others copy; site 1 copies item 1 of site 0
    /// network.set_up(3, 2, &[2, 0], &[0b011, 0b010])?;
    /// let places = network.places()?;
    /// assert_eq!(places[..3], [1, 2, 0]);
    /// let (late, older) = (network.dummy(2)?, network.dummy(0)?);
    /// assert_eq!(compare(&older, &late, &places).order, Ordering::Less);
    /// assert_eq!(network.set_up(2, 2, &[0, 1], &[0b10, 0b01]), Err(Refusal::Cycle));
    /// # Ok(())
    /// # }
    /// ```
    pub fn places(&self) -> Result<Places, Refusal> {
        let mut answer = [0; SITES];
        let number = unsafe { raw::gevrolen_places(&*self.words, &mut answer) };
        answered(number, || answer)
    }

    /// The base values, and whether a collect has removed a record since set-up; where none has, they are 0. 6.
    pub fn base(&self) -> Result<Base, Refusal> {
        let mut answer = raw::Base::default();
        let number = unsafe { raw::gevrolen_base(&*self.words, &mut answer) };
        answered(number, || Base::of(&answer))
    }

    /// Where the value of a read in the history came from: its own commit where it follows a write of the item there; else the last commit before that in timestamp
    /// order that writes the item, equal timestamps in the order made. Where the history has none it is the base value if a collect has removed a record since set-up,
    /// else the start value. The read is named by its commit's record number and the number of the operation in it, both from 0. 6, 26.
    ///
    /// ```
    /// # use gevrolen::{Network, Operation, Origin};
    /// # fn main() -> Result<(), gevrolen::Refusal> {
    /// let mut network = Network::new();
    /// network.set_up(1, 2, &[0, 0], &[0, 0])?;
    /// network.commit(0, &[Operation::write(0, 5)])?;
    /// network.commit(0, &[Operation::read(0), Operation::read(1), Operation::write(0, 4), Operation::read(0)])?;
    /// assert_eq!(network.origin(1, 0)?, Origin::Commit(0));
    /// assert_eq!(network.origin(1, 1)?, Origin::Start);
    /// assert_eq!(network.origin(1, 3)?, Origin::Commit(1));
    /// # Ok(())
    /// # }
    /// ```
    pub fn origin(&self, record: u32, operation: u32) -> Result<Origin, Refusal> {
        let mut answer = raw::Origin::default();
        let number = unsafe { raw::gevrolen_origin(&*self.words, record, operation, &mut answer) };
        answered(number, || Origin::of(&answer))
    }

    /// The history as a file. 6.
    pub fn export(&self) -> Result<Vec<u8>, Refusal> {
        let mut buffer = vec![0; FILE_BYTES];
        let length = self.export_to(&mut buffer)?;
        buffer.truncate(length);
        Ok(buffer)
    }

    /// The history as a file at the front of a buffer, whose rest stays as it was; answers the file's length. 6, 25.
    pub fn export_to(&self, buffer: &mut [u8]) -> Result<usize, Refusal> {
        let mut length = 0;
        let number = unsafe { raw::gevrolen_export(&*self.words, buffer.as_mut_ptr(), buffer.len(), &mut length) };
        answered(number, || length)
    }

    /// The answer to one line of a script, both without newline: `?` where the line is no call.
    ///
    /// ```
    /// let mut network = gevrolen::Network::new();
    /// assert_eq!(network.script(b"p 3 2 0 6 1 4"), b"0");
    /// assert_eq!(network.script(b"c 0 w0=5"), b"0 0 0.1");
    /// assert_eq!(network.script(b"hello"), b"?");
    /// ```
    pub fn script(&mut self, line: &[u8]) -> Vec<u8> {
        let mut answer = vec![0; crate::ANSWER];
        let length = unsafe { raw::gevrolen_script(&mut *self.words, line.as_ptr(), line.len(), answer.as_mut_ptr()) };
        answer.truncate(length);
        answer
    }

    /// The answers to the lines of a script, a newline behind each; the last line may lack its own.
    ///
    /// ```
    /// let mut network = gevrolen::Network::new();
    /// assert_eq!(network.run(b"p 3 2 0 6 1 4\nc 0 w0=5\nl 0 1"), b"0\n0 0 0.1\n0\n");
    /// ```
    pub fn run(&mut self, text: &[u8]) -> Vec<u8> {
        let mut told = Vec::new();
        let ended = text.iter().rposition(|&byte| byte == b'\n').map_or(0, |place| place + 1);
        self.run_lines(&text[..ended], &mut told);
        if ended < text.len() {
            self.run_lines(&[&text[ended..], b"\n"].concat(), &mut told);
        }
        told
    }

    /// Lines that all end in a newline.
    fn run_lines(&mut self, mut text: &[u8], told: &mut Vec<u8>) {
        let mut answers = vec![0; ANSWERS];
        while !text.is_empty() {
            let mut progress = raw::Progress::default();
            unsafe { raw::gevrolen_run(&mut *self.words, text.as_ptr(), text.len(), answers.as_mut_ptr(), answers.len(), &mut progress) };
            told.extend_from_slice(&answers[..progress.filled]);
            text = &text[progress.used..];
        }
    }
}

impl Default for Network {
    fn default() -> Network {
        Network::new()
    }
}

impl fmt::Debug for Network {
    fn fmt(&self, f: &mut fmt::Formatter<'_>) -> fmt::Result {
        let Ok(table) = self.table(0) else {
            return f.write_str("Network: never set up, or not well shaped");
        };
        let sites: Vec<u32> = (0..SITES as u32).filter(|&site| self.stamp(site).is_ok()).collect();
        write!(f, "Network: {} sites, {} items", sites.len(), table.len())?;
        for &site in &sites {
            if let (Ok(stamp), Ok(values)) = (self.stamp(site), self.table(site)) {
                write!(f, "\n  site {site} at {stamp}: {values:?}")?;
            }
        }
        for (parent, child) in sites.iter().flat_map(|&parent| sites.iter().map(move |&child| (parent, child))) {
            if let Ok(line) = self.line(parent, child) {
                write!(f, "\n  line {parent} to {child}: {} held, {} arrived", line.held, line.arrived)?;
            }
        }
        Ok(())
    }
}
