//! Every call once accepted, and refused where it can be; what the words are then.
use gevrolen::{compare, read, record, records, side_by_side, upgrade};
use gevrolen::{Base, Compared, Kind, Line, LoadError, Network, Operation, Origin, Places, Record, Refusal, Stamp, WORDS};
use std::cmp::Ordering;

const NUMBERS: Places = [0, 1, 2, 3, 4, 5, 6, 7];

fn stamp(tuples: &[(u32, u32)]) -> Stamp {
    Stamp::new(0, tuples).unwrap()
}

/// Three sites; item 0 at site 0 with copies at 1 and 2, item 1 at site 1 with a copy at 2.
fn worked() -> Network {
    let mut network = Network::new();
    network.set_up(3, 2, &[0, 1], &[6, 4]).unwrap();
    network
}

#[test]
fn the_worked_example() {
    let mut network = worked();
    assert_eq!(network.commit(0, &[Operation::write(0, 5)]).unwrap().stamp, stamp(&[(0, 1)]));
    network.deliver(0, 1).unwrap();
    let taken = network.schedule(1).unwrap();
    assert_eq!((taken.parent, taken.stamp), (0, stamp(&[(0, 1)])));
    let second = network.commit(1, &[Operation::read(0), Operation::write(1, 7)]).unwrap();
    assert_eq!((second.stamp, second.values), (stamp(&[(0, 1), (1, 1)]), vec![5]));
    network.deliver(1, 2).unwrap();
    assert_eq!(network.schedule(2), Err(Refusal::ParentSilent));
    network.deliver(0, 2).unwrap();
    assert_eq!(network.schedule(2).unwrap().parent, 0);
    let third = network.commit(2, &[Operation::read(0), Operation::read(1)]).unwrap();
    assert_eq!((third.stamp, third.values), (stamp(&[(0, 1), (2, 1)]), vec![5, 0]));

    assert_eq!(network.table(2).unwrap(), [5, 0]);
    assert_eq!(network.stamp(2).unwrap(), stamp(&[(0, 1), (2, 1)]));
    assert_eq!(network.line(1, 2).unwrap(), Line { held: 1, arrived: 1 });
    assert_eq!(network.waiting(2).unwrap(), [1]);
    assert_eq!(network.places().unwrap(), NUMBERS);
    // site 2 read item 1 at a timestamp before that of site 1's commit, which was made before
    assert_eq!([(1, 0), (2, 0), (2, 1)].map(|(k, a)| network.origin(k, a)), [Ok(Origin::Commit(0)), Ok(Origin::Commit(0)), Ok(Origin::Start)]);
    for (k, a) in [(0, 0), (1, 1), (1, 2), (1, u32::MAX), (3, 0), (u32::MAX, 0)] {
        assert_eq!(network.origin(k, a), Err(Refusal::NoSuchRead));
    }

    let file = network.export().unwrap();
    let lines: Vec<String> = records(&file).unwrap().map(|record| record.to_string()).collect();
    assert_eq!(lines, ["0 0 0.1 w0=5", "1 0 0.1,1.1 r0=5 w1=7", "2 0 0.1,2.1 r0=5 r1=0"]);
}

#[test]
fn reads_beside_own_writes() {
    let mut network = worked();
    let (read, write) = (Operation::read, Operation::write);
    network.commit(1, &[write(1, 9)]).unwrap();
    // before the write, between two, after both, and of a copy
    let second = network.commit(1, &[read(1), write(1, 8), read(1), read(0), write(1, 7), read(1)]).unwrap();
    assert_eq!(second.values, [9, 8, 0, 7]);
    assert_eq!(network.table(1).unwrap(), [0, 7]);
    let origins = [0, 2, 3, 5].map(|a| network.origin(1, a).unwrap());
    assert_eq!(origins, [Origin::Commit(0), Origin::Commit(1), Origin::Start, Origin::Commit(1)]);
    // the same by lists
    let third = network.commit_lists(1, &[1, 0, 1, 0, 0], &[1, 1, 1, 1, 0], &[6, 0, 5, 0, 0]).unwrap();
    assert_eq!(third.values, [6, 5, 0]);
    assert_eq!(record(&network.export().unwrap(), 2).unwrap().to_string(), "1 0 1.3 w1=6 r1=6 w1=5 r1=5 r0=0");
}

#[test]
fn reports_in_order() {
    let mut network = Network::new();
    let write = |item| Operation::write(item, 1);
    network.set_up(3, 5, &[1, 0, 0, 0, 0], &[4, 6, 4, 4, 0]).unwrap();
    assert_eq!(network.waiting(2).unwrap(), []);
    // one commit: by number, without item 4, of which there is no copy
    network.commit(0, &[write(3), write(4), write(1)]).unwrap();
    assert_eq!(network.waiting(2).unwrap(), [1, 3]);
    assert_eq!(network.waiting(1).unwrap(), [1]);
    // a later write of an item leaves it in its place
    network.commit(0, &[write(2), write(1)]).unwrap();
    assert_eq!(network.waiting(2).unwrap(), [1, 3, 2]);
    // site 1 at 1.1 is earlier than site 0 at 0.1, arrived or not; at 0.1,1.2 it would be later
    let mut heard = network.clone();
    network.commit(1, &[write(0)]).unwrap();
    assert_eq!(network.waiting(2).unwrap(), [0, 1, 3, 2]);
    network.deliver(0, 2).unwrap();
    assert_eq!(network.waiting(2).unwrap(), [0, 1, 3, 2]);
    heard.deliver(0, 1).unwrap();
    heard.schedule(1).unwrap();
    assert_eq!(heard.commit(1, &[write(0)]).unwrap().stamp, stamp(&[(0, 1), (1, 1)]));
    assert_eq!(heard.waiting(2).unwrap(), [1, 3, 0, 2]);
    // an epoch is later than all before it
    heard.epoch(0, 1).unwrap();
    heard.commit(0, &[write(2), write(3)]).unwrap();
    assert_eq!(heard.waiting(2).unwrap(), [1, 3, 0, 2]);
    heard.deliver(0, 2).unwrap();
    heard.deliver(1, 2).unwrap();
    heard.schedule(2).unwrap();
    assert_eq!(heard.waiting(2).unwrap(), [0, 1, 2, 3]);
}

#[test]
fn refusals_leave_the_words() {
    let mut network = worked();
    let before = network.clone();
    let refusals = [
        (network.set_up(9, 2, &[0, 1], &[6, 4]).unwrap_err(), 1),
        (network.set_up(3, 2, &[0], &[6, 4]).unwrap_err(), 2),
        (network.set_up(3, 2, &[3, 1], &[6, 4]).unwrap_err(), 3),
        (network.set_up(3, 2, &[0, 1], &[7, 4]).unwrap_err(), 4),
        (network.set_up(3, 2, &[0, 1], &[6, 1]).unwrap_err(), 5),
        (network.dummy(3).unwrap_err(), 7),
        (network.commit(0, &[]).unwrap_err(), 8),
        (network.commit_lists(0, &[0, 0], &[0, 0], &[0]).unwrap_err(), 8),
        (network.commit_lists(0, &[2], &[0], &[0]).unwrap_err(), 9),
        (network.commit(0, &[Operation::read(1)]).unwrap_err(), 10),
        (network.commit(1, &[Operation::write(0, 1)]).unwrap_err(), 11),
        (network.epoch(1, 1).unwrap_err(), 15),
        (network.epoch(0, 0).unwrap_err(), 16),
        (network.deliver(1, 0).unwrap_err(), 17),
        (network.line(1, 0).unwrap_err(), 17),
        (network.deliver(0, 1).unwrap_err(), 18),
        (network.schedule(0).unwrap_err(), 19),
        (network.schedule(1).unwrap_err(), 20),
        (network.table(3).unwrap_err(), 7),
        (network.stamp(3).unwrap_err(), 7),
        (network.waiting(3).unwrap_err(), 7),
        (network.origin(0, 0).unwrap_err(), 26),
        (network.export_to(&mut [0; 15]).unwrap_err(), 25),
    ];
    for (refusal, number) in refusals {
        assert_eq!(refusal.number(), number);
        assert_eq!(Refusal::from_number(number), Some(refusal));
    }
    assert_eq!(network.as_words(), before.as_words());
    assert_eq!(Refusal::from_number(0), None);
    let unknown = Refusal::from_number(27).unwrap();
    assert_eq!((unknown, unknown.number()), (Refusal::Unknown(27), 27));
    assert!(unknown.to_string().starts_with(concat!("The number 27 is none that version ", env!("CARGO_PKG_VERSION"), " knows")));
}

#[test]
fn full_lines_and_histories() {
    let mut network = worked();
    for _ in 0..gevrolen::MESSAGES {
        network.dummy(0).unwrap();
    }
    let before = network.clone();
    assert_eq!((network.dummy(0), network.round()), (Err(Refusal::LineFull), Err(Refusal::LineFull)));
    assert_eq!(network.as_words(), before.as_words());
    for _ in 0..gevrolen::RECORDS {
        network.commit(1, &[Operation::read(1)]).unwrap();
    }
    assert_eq!(network.commit(1, &[Operation::read(1)]), Err(Refusal::HistoryFull));
    assert_eq!(records(&network.export().unwrap()).unwrap().len(), gevrolen::RECORDS);
}

#[test]
fn saved_and_loaded() {
    let mut network = worked();
    network.commit(0, &[Operation::write(0, -3)]).unwrap();
    let mut words = *network.as_words();
    let mut loaded = Network::from_words(&words);
    assert_eq!(loaded.table(0).unwrap(), [-3, 0]);
    loaded.epoch(0, 7).unwrap();
    assert_eq!(network.stamp(0).unwrap().epoch(), 0);
    words[0] = 9;
    assert_eq!(Network::from_words(&words).table(0), Err(Refusal::NoState));
    assert_eq!(Network::from_words(&words).origin(0, 0), Err(Refusal::NoState));
    assert_eq!(Network::from_words(&words).waiting(2), Err(Refusal::NoState));
    assert_eq!(Network::from_words(&words).places(), Err(Refusal::NoState));
    assert_eq!(Network::from_words(&words).collect(), Err(Refusal::NoState));
    assert_eq!(Network::from_words(&words).round(), Err(Refusal::NoState));
    assert_eq!(Network::from_words(&words).base(), Err(Refusal::NoState));
    assert_eq!(Network::from_words(&[u32::MAX; WORDS]).export(), Err(Refusal::NoState));

    let saved = network.save();
    assert_eq!((saved.len(), &saved[..8]), (gevrolen::SAVED_BYTES, &b"GEVSTATE"[..]));
    assert_eq!(Network::load(&saved).unwrap().as_words(), network.as_words());
    assert_eq!(upgrade(&saved).as_deref(), Ok(&saved[..]));
    for cut in [0, 7, 19, 20, 5000, saved.len() - 1] {
        assert_eq!(Network::load(&saved[..cut]).unwrap_err(), if cut < 20 { LoadError::NotSaved } else { LoadError::Damaged });
    }
    for at in [8, 12, 16, 5000, saved.len() - 1] {
        let mut damaged = saved.clone();
        damaged[at] ^= 0x80;
        assert_eq!(Network::load(&damaged).unwrap_err(), LoadError::Damaged);
        assert_eq!(upgrade(&damaged), Err(LoadError::Damaged));
    }
    let bare = &saved[16..saved.len() - 4];
    assert_eq!(Network::load(bare).unwrap_err(), LoadError::NotSaved);
    assert_eq!((upgrade(bare).as_deref(), upgrade(&bare[..4 * 28051]).as_deref()), (Ok(&saved[..]), Ok(&saved[..])));
    assert_eq!(upgrade(&bare[4..]), Err(LoadError::NoVersion));
}

#[test]
fn files() {
    let mut network = worked();
    network.commit(0, &[Operation::write(0, -2147483648)]).unwrap();
    let mut buffer = [0xee; 60];
    assert_eq!(network.export_to(&mut buffer), Ok(40));
    assert_eq!(buffer[40..], [0xee; 20]);

    // the file may end a longer buffer
    let longer = [b"in front of it", &buffer[..40]].concat();
    let file = read(&longer).unwrap();
    assert_eq!((file.start, file.length, file.records, file.sites, file.items, file.places), (14, 24, 1, 3, 2, NUMBERS));
    assert_eq!(file.to_string(), "1 records of 3 sites and 2 items");
    let first = Record { site: 0, stamp: stamp(&[(0, 1)]), operations: vec![Operation::write(0, -2147483648)] };
    assert_eq!(record(&longer, 0), Ok(first));
    assert_eq!(record(&longer, 1), Err(Refusal::NoSuchRecord));

    assert_eq!(read(&[]), Err(Refusal::NoFile));
    assert_eq!(read(&buffer[24..40]), Err(Refusal::WrongDistance));
    buffer[3] = 1;
    assert_eq!(records(&buffer[..40]).err(), Some(Refusal::InvalidFile));
}

#[test]
fn where_timestamps_part() {
    let eight: Vec<(u32, u32)> = (0..8).map(|site| (site, u32::MAX)).collect();
    let lower = [&eight[..7], &[(7, 3)]].concat();
    let at = |epoch, tuples: &[(u32, u32)]| Stamp::new(epoch, tuples).unwrap();
    let cases = [
        // the epochs differ: the same tuples, others that alone would be in the other order, none
        (stamp(&[(0, 1), (1, 1)]), at(1, &[(0, 1), (1, 1)]), Ordering::Less, None),
        (stamp(&[(1, 1)]), at(u32::MAX, &[(2, 1)]), Ordering::Less, None),
        (stamp(&[]), at(1, &[]), Ordering::Less, None),
        // none shared
        (stamp(&[]), stamp(&[(0, 1)]), Ordering::Less, Some(0)),
        (stamp(&[(2, 1)]), stamp(&[(1, 1)]), Ordering::Less, Some(0)),
        (stamp(&[(1, 1)]), stamp(&[(1, 2)]), Ordering::Less, Some(0)),
        // some, then another site, another count, or the end
        (stamp(&[(0, 1), (2, 1)]), stamp(&[(0, 1), (1, 1)]), Ordering::Less, Some(1)),
        (stamp(&[(0, 1), (1, 1)]), stamp(&[(0, 1), (1, 2)]), Ordering::Less, Some(1)),
        (stamp(&[(0, 1)]), stamp(&[(0, 1), (1, 1)]), Ordering::Less, Some(1)),
        (stamp(&lower), stamp(&eight), Ordering::Less, Some(7)),
        // the same tuple behind others
        (stamp(&[(0, 1), (1, 1), (2, 1)]), stamp(&[(0, 1), (1, 2), (2, 1)]), Ordering::Less, Some(1)),
        // equal ones
        (stamp(&[]), stamp(&[]), Ordering::Equal, Some(0)),
        (stamp(&[(0, 1)]), stamp(&[(0, 1)]), Ordering::Equal, Some(1)),
        (stamp(&eight), stamp(&eight), Ordering::Equal, Some(8)),
    ];
    for (first, second, order, shared) in cases {
        assert_eq!(compare(&first, &second, &NUMBERS), Compared { order, shared }, "{first} and {second}");
        assert_eq!(compare(&second, &first, &NUMBERS), Compared { order: order.reverse(), shared }, "{second} and {first}");
    }
}

#[test]
fn by_places() {
    let places: Places = [2, 0, 3, 1, 4, 5, 6, 7];
    let reverse: Places = [7, 6, 5, 4, 3, 2, 1, 0];
    let cases = [
        // the higher place is earlier, behind shared tuples too; the lower count of one site
        (stamp(&[(0, 1)]), stamp(&[(3, 1)]), places, Some(0)),
        (stamp(&[(1, 1), (0, 1)]), stamp(&[(1, 1), (3, 1)]), places, Some(1)),
        (stamp(&[(1, 1)]), stamp(&[(2, 1)]), reverse, Some(0)),
        (stamp(&[(1, 1)]), stamp(&[(1, 2)]), reverse, Some(0)),
        (stamp(&[(7, 1)]), stamp(&[(7, 1), (6, 1)]), reverse, Some(1)),
        (Stamp::new(0, &[(3, 1)]).unwrap(), Stamp::new(1, &[(0, 1)]).unwrap(), places, None),
        // a number past the table is its own place; of two sites at one place the higher number
        (stamp(&[(8, 1)]), stamp(&[(0, 1)]), reverse, Some(0)),
        (stamp(&[(7, 1)]), stamp(&[(8, 1)]), [0, 0, 0, 0, 0, 0, 0, 9], Some(0)),
        (stamp(&[(5, 9)]), stamp(&[(2, 1)]), [0; 8], Some(0)),
    ];
    for (first, second, table, shared) in cases {
        assert_eq!(compare(&first, &second, &table), Compared { order: Ordering::Less, shared }, "{first} and {second}");
        assert_eq!(compare(&second, &first, &table), Compared { order: Ordering::Greater, shared }, "{second} and {first}");
    }
    assert_eq!(compare(&stamp(&[(7, 1), (6, 1)]), &stamp(&[(7, 1), (6, 1)]), &reverse), Compared { order: Ordering::Equal, shared: Some(2) });
}

/// Four sites with places 2 0 3 1: item 0 at site 3 with copies at 0 and 2, item 1 at site 0 with a copy at 2.
#[test]
fn copies_at_lower_sites() {
    let mut network = Network::new();
    let (read_item, write) = (Operation::read, Operation::write);
    network.set_up(4, 2, &[3, 0], &[5, 4]).unwrap();
    assert_eq!(network.places(), Ok([2, 0, 3, 1, 4, 5, 6, 7]));
    network.commit(3, &[write(0, 5)]).unwrap();
    network.commit(0, &[read_item(0), write(1, 7)]).unwrap();
    assert_eq!(network.waiting(2).unwrap(), [1, 0]);
    network.deliver(3, 2).unwrap();
    network.deliver(0, 2).unwrap();
    // by its number site 3 would be earlier
    assert_eq!(network.schedule(2).unwrap().parent, 0);
    network.deliver(3, 0).unwrap();
    network.schedule(0).unwrap();
    let heard = network.commit(0, &[read_item(0), write(1, 8)]).unwrap();
    assert_eq!((heard.stamp, heard.values), (stamp(&[(3, 1), (0, 2)]), vec![5]));
    assert_eq!([network.origin(1, 0), network.origin(2, 0)], [Ok(Origin::Start), Ok(Origin::Commit(0))]);

    let file = network.export().unwrap();
    let found = read(&file).unwrap();
    assert_eq!((found.start, found.length, found.records, found.places), (4, 96, 3, [2, 0, 3, 1, 4, 5, 6, 7]));
    assert_eq!(file[..4], [2, 0, 3, 1]);
    let lines: Vec<String> = records(&file).unwrap().map(|record| record.to_string()).collect();
    assert_eq!(lines, ["3 0 3.1 w0=5", "0 0 0.1 r0=0 w1=7", "0 0 3.1,0.2 r0=5 w1=8"]);
    assert_eq!(record(&file, 2).unwrap().to_string(), lines[2]);
    // a table with a place twice, the numbers, and none
    for table in [[2, 0, 2, 1], [0, 1, 2, 3]] {
        assert_eq!(read(&[&table, &file[4..]].concat()), Err(Refusal::InvalidFile));
    }
    assert_eq!(read(&file[4..]), Err(Refusal::WrongDistance));

    let before = network.clone();
    assert_eq!(network.set_up(3, 3, &[0, 1, 2], &[2, 4, 1]), Err(Refusal::Cycle));
    assert_eq!(network.set_up(3, 3, &[0, 1, 2], &[2, 1, 4]), Err(Refusal::WrongMask));
    assert_eq!(network.as_words(), before.as_words());
}

/// Four sites with places 2 0 3 1: after a round every copy has every commit, in the order of places, and a collect removes all.
#[test]
fn every_house_heard() {
    let mut network = Network::new();
    network.set_up(4, 2, &[3, 0], &[5, 4]).unwrap();
    network.epoch(1, 4).unwrap();
    network.commit(3, &[Operation::write(0, 5)]).unwrap();
    network.commit(0, &[Operation::read(0), Operation::write(1, 7)]).unwrap();
    network.deliver(3, 2).unwrap();
    assert_eq!(network.round(), Ok(5));
    assert_eq!([0, 1, 2, 3].map(|site| network.stamp(site).unwrap().to_string()), ["5 3.2,0.2", "5 1.1", "5 3.2,2.1", "5 3.2"]);
    assert_eq!([0, 1, 2, 3].map(|site| network.table(site).unwrap()), [[5, 7], [0, 0], [5, 7], [5, 0]]);
    let lines = [(3, 0), (3, 2), (0, 2)].map(|(parent, child)| network.line(parent, child).unwrap());
    assert_eq!(lines.map(|line| (line.held, line.arrived)), [(0, 0), (0, 0), (1, 1)]);
    assert_eq!(network.collect(), Ok(2));
    assert_eq!(network.base(), Ok(Base { folded: true, values: vec![5, 7] }));
    assert_eq!(network.round(), Ok(6));
    // the greatest epoch is the last one there is
    network.epoch(1, u32::MAX).unwrap();
    let before = network.clone();
    assert_eq!(network.round(), Err(Refusal::EpochNotAbove));
    assert_eq!(network.as_words(), before.as_words());
}

/// A commit is removed when every site has heard of it; what it left stays, in the state and in the file.
#[test]
fn collected() {
    let mut network = worked();
    let (read_item, write) = (Operation::read, Operation::write);
    let none = Base { folded: false, values: vec![0, 0] };
    assert_eq!((network.collect(), network.base()), (Ok(0), Ok(none.clone())));
    network.commit(1, &[write(1, -7)]).unwrap();
    network.commit(0, &[write(0, 4), write(0, 5)]).unwrap();
    assert_eq!((network.collect(), network.base()), (Ok(0), Ok(none.clone())));
    assert_eq!(read(&network.export().unwrap()).unwrap().base, none);
    // site 2 takes site 1's commit, the earlier one: that goes, and record 1 is record 0, also on the lines
    network.deliver(0, 2).unwrap();
    network.deliver(1, 2).unwrap();
    assert_eq!(network.schedule(2).unwrap().parent, 1);
    network.deliver(0, 1).unwrap();
    network.schedule(1).unwrap();
    assert_eq!((network.collect(), network.base()), (Ok(1), Ok(Base { folded: true, values: vec![0, -7] })));
    assert_eq!(network.waiting(2).unwrap(), [0]);
    network.dummy(1).unwrap();
    network.deliver(1, 2).unwrap();
    assert_eq!(network.schedule(2).unwrap().parent, 0);
    assert_eq!(network.table(2).unwrap(), [5, -7]);
    let file = network.export().unwrap();
    let found = read(&file).unwrap();
    assert_eq!((found.start, found.length, found.records, found.base), (8, 32, 1, Base { folded: true, values: vec![0, -7] }));
    assert_eq!(file[..8], [0, 0, 0, 0, 249, 255, 255, 255]);
    assert_eq!(record(&file, 0).unwrap().to_string(), "0 0 0.1 w0=4 w0=5");
    assert_eq!(network.collect(), Ok(1));
    assert_eq!(network.base(), Ok(Base { folded: true, values: vec![5, -7] }));
    assert_eq!(network.collect(), Ok(0));
    // the next commit is record 0; its read came from what was folded
    assert_eq!(network.commit(2, &[read_item(1), read_item(0)]).unwrap().values, [-7, 5]);
    assert_eq!(network.origin(0, 0), Ok(Origin::Folded));
    // the flag, and a distance too small for what it announces
    let file = network.export().unwrap();
    let end = file.len();
    for (place, byte) in [(end - 2, 0), (end - 2, 4), (end - 8, 23)] {
        let mut damaged = file.clone();
        damaged[place] = byte;
        assert_eq!(read(&damaged), Err(Refusal::InvalidFile));
    }
    network.set_up(3, 2, &[0, 1], &[6, 4]).unwrap();
    assert_eq!(network.base(), Ok(none));
}

/// A base value that is not 0 where nothing was removed is no state; a line that names a commit to be folded, to which no calls lead, is one that a collect refuses.
#[test]
fn refused_collects() {
    let mut network = worked();
    network.commit(0, &[Operation::write(0, 5)]).unwrap();
    let words = *network.as_words();
    let with = |place: usize, word| {
        let mut changed = words;
        changed[place] = word;
        Network::from_words(&changed)
    };
    let (flag, value) = (WORDS - gevrolen::ITEMS - 1, WORDS - gevrolen::ITEMS);
    assert_eq!(with(value, 1).base(), Err(Refusal::NoState));
    assert_eq!(with(value + 1, 1).dummy(0), Err(Refusal::NoState));
    assert_eq!(with(value + 2, 1).base(), Ok(Base { folded: false, values: vec![0, 0] }));
    assert_eq!(with(flag, 1).base(), Ok(Base { folded: true, values: vec![0, 0] }));
    assert!(with(flag, u32::MAX).base().unwrap().folded);
    // the epochs of sites 1 and 2
    let mut ahead = words;
    (ahead[213], ahead[295]) = (1, 1);
    let mut ahead = Network::from_words(&ahead);
    let before = ahead.clone();
    assert_eq!(ahead.collect(), Err(Refusal::NoState));
    assert_eq!(ahead.as_words(), before.as_words());
    ahead.deliver(0, 1).unwrap();
}

#[test]
fn more_than_256() {
    let mut network = Network::new();
    network.set_up(1, 1, &[0], &[0]).unwrap();
    for round in 0..3 {
        for value in 0..gevrolen::RECORDS as i32 {
            network.commit(0, &[Operation::write(0, value + round)]).unwrap();
        }
        assert_eq!(network.commit(0, &[Operation::read(0)]), Err(Refusal::HistoryFull));
        assert_eq!(network.collect(), Ok(gevrolen::RECORDS as u32));
        assert_eq!(network.base().unwrap().values, [255 + round]);
    }
    assert_eq!(network.export().unwrap().len(), 20);
}

/// The longest file there is: eight sites in reverse, 256 records of eight tuples and eight operations, a table, and base values of 64 items.
#[test]
fn the_longest_file() {
    let mut network = Network::new();
    let mut placement = vec![(0, 0); gevrolen::ITEMS];
    placement[1..8].copy_from_slice(&[(7, 64), (6, 32), (5, 16), (4, 8), (3, 4), (2, 2), (1, 1)]);
    let (primaries, masks): (Vec<u32>, Vec<u8>) = placement.into_iter().unzip();
    network.set_up(8, 64, &primaries, &masks).unwrap();
    assert_eq!(network.places(), Ok([7, 6, 5, 4, 3, 2, 1, 0]));
    for _ in 0..2 {
        for site in (1..8).rev() {
            network.dummy(site).unwrap();
            network.deliver(site, site - 1).unwrap();
            network.schedule(site - 1).unwrap();
        }
        network.commit(0, &[Operation::write(0, 1); 8]).unwrap();
    }
    assert_eq!(network.collect(), Ok(1));
    for _ in 1..gevrolen::RECORDS {
        network.commit(0, &[Operation::write(0, -1); 8]).unwrap();
    }
    let file = network.export().unwrap();
    assert_eq!(file.len(), gevrolen::FILE_BYTES);
    assert_eq!(records(&file).unwrap().len(), gevrolen::RECORDS);
    assert_eq!(network.export_to(&mut vec![0; file.len() - 1]), Err(Refusal::BufferTooShort));
}

#[test]
fn in_words() {
    assert_eq!(side_by_side(&stamp(&[(0, 1), (1, 1)]), &stamp(&[(0, 1)]), &NUMBERS), "epoch 0   epoch 0\n0.1       0.1\n1.1     >");
    assert_eq!(side_by_side(&stamp(&[]), &Stamp::new(1, &[(0, 1)]).unwrap(), &NUMBERS), "epoch 0 < epoch 1\n          0.1");
    assert_eq!(side_by_side(&stamp(&[(2, 1)]), &stamp(&[(0, 1)]), &[1, 2, 0, 3, 4, 5, 6, 7]), "epoch 0   epoch 0\n2.1     > 0.1");
    let read = Operation { kind: Kind::Read, item: 3, value: -1 };
    assert_eq!(format!("{read} {read:?}"), "r3=-1 Operation(r3=-1)");
    assert_eq!(format!("{:?}", stamp(&[(0, 1), (2, 4)])), "Stamp(0 0.1,2.4)");
}

#[test]
fn scripts_longer_than_a_buffer() {
    let mut network = worked();
    let lines = 9000;
    let text = "e 0 4294967295\n".repeat(lines);
    let told = network.run(text.trim_end().as_bytes());
    assert_eq!(told, [&b"0\n"[..], &b"16\n".repeat(lines - 1)].concat());
    let longest = "c 0".to_string() + &" r0".repeat(8) + "\n";
    network.set_up(1, 1, &[0], &[0]).unwrap();
    network.commit(0, &[Operation::write(0, i32::MIN)]).unwrap();
    let told = network.run(longest.repeat(300).as_bytes());
    assert_eq!(told.split(|&byte| byte == b'\n').count(), 301);
}
