//! The calls of bench/speed.c, and its output: 100,000 mixed steps on an almost empty network and as many on a full
//! one; or, with a letter as its argument, one kind of call again and again.
use peer::file::{self, Record};
use peer::network::{Network, Op, Origin, ITEMS};
use peer::{Answer, Cause};
use std::hint::black_box;

/// The number that an answer has.
fn number<T>(answer: Answer<T>) -> u64 {
    answer.err().map_or(0, |cause: Cause| cause as u64)
}

/// An operation of a kind on each item of site a.
fn eight(kind: u8, a: u32) -> [Op; 8] {
    std::array::from_fn(|k| Op { kind, item: a % 8 + 8 * k as u32, value: 1 })
}

/// Steps of three bytes: a letter as in a script, and two digits. `c` writes item b at site a, `w` all eight items of site a, `r` reads them; the
/// new epoch of `e` is the round's number. What they answer is summed: every number, and the own count of each timestamp that a schedule took.
fn step(state: &mut Network, step: &[u8], r: u32) -> u64 {
    let (a, b) = (step[1] as u32 % 16, step[2] as u32 % 16);
    match step[0] {
        b'c' => number(state.commit(a, &[Op { kind: 1, item: b, value: 1 }])),
        b'w' => number(state.commit(a, &eight(1, a))),
        b'r' => number(state.commit(a, &eight(0, a))),
        b'd' => number(state.dummy(a)),
        b'e' => number(state.epoch(a, r)),
        b'l' => number(state.deliver(a, b)),
        _ => match state.schedule(a) {
            Ok(answer) => answer.stamp.own() as u64,
            Err(cause) => cause as u64,
        },
    }
}

fn turns(state: &mut Network, steps: &[u8], n: u32) -> u64 {
    (1..=n).map(|r| steps.chunks_exact(3).map(|s| step(state, black_box(s), black_box(r))).sum::<u64>()).sum()
}

/// 1,000 times a set-up and nine turns of eleven steps.
fn almost_empty(state: &mut Network) -> u64 {
    (0..1000)
        .map(|_| {
            let _ = state.set_up(2, 1, black_box(&[0]), &[2]);
            turns(state, b"c00l01s10d00l01s10e00c10s10l01e10", 9)
        })
        .sum()
}

/// Item k has its primary at site k % 8 and a copy at every site above it.
fn set_up(state: &mut Network) {
    let primaries: [u32; ITEMS] = std::array::from_fn(|k| k as u32 % 8);
    let masks: [u8; ITEMS] = std::array::from_fn(|k| [254, 252, 248, 240, 224, 192, 128, 0][k % 8]);
    let _ = state.set_up(8, 64, &primaries, &masks);
}

/// 256 records of eight writes, the last of eight reads; each line holds 16; from each of its parents one message has arrived at site 7.
fn fill(state: &mut Network) {
    set_up(state);
    turns(state, b"w00w10w20w30w40w50w60w70", 16);
    turns(state, b"w70", 127);
    turns(state, b"r70", 1);
    turns(state, b"l07l17l27l37l47l57l67", 1);
}

/// 10,000 turns of ten steps.
fn full(state: &mut Network) -> u64 {
    fill(state);
    turns(state, b"c77c10d00e00e70s70d60l67l76s10", 10000)
}

/// 128 commits of eight writes at all eight sites, 14 messages of theirs on a line.
fn half(state: &mut Network) {
    turns(state, b"w00w10w20w30w40w50w60w70", 14);
    turns(state, b"w70", 16);
}

/// Every site hears of all commits: a higher epoch at site 0, then each site takes what there is and sends a dummy.
fn hear(state: &mut Network, epoch: u32) {
    let _ = state.epoch(0, epoch);
    for site in 0..8 {
        for parent in 0..site {
            while state.deliver(parent, site).is_ok() {}
        }
        while state.schedule(site).is_ok() {}
        let _ = state.dummy(site);
    }
}

/// A full network to collect, as in bench/speed.c.
fn season(state: &mut Network, all: bool) {
    set_up(state);
    half(state);
    hear(state, 1);
    half(state);
    if all {
        hear(state, 2);
    }
    turns(state, b"d00d10d20d30d40d50d60", 16);
}

/// A network to run a round on, as in bench/speed.c.
fn unheard(state: &mut Network) {
    set_up(state);
    turns(state, b"w00w10w20w30w40w50w60w70", 15);
    turns(state, b"w70", 136);
}

/// Every field of a record goes into a sum.
fn digest(r: &Record) -> u64 {
    let own = r.stamp.own();
    let ops: u64 = r.ops.iter().map(|o| o.kind as u64 + o.item as u64 + o.value as u32 as u64).sum();
    r.site as u64 + r.len as u64 + r.stamp.epoch as u64 + own as u64 + ops
}

/// Items with their places in a sum, which tells their order.
fn ordered(items: &[u8]) -> u64 {
    items.iter().zip(1u64..).map(|(&item, place)| place * item as u64).sum()
}

/// A copy of a state, and its collect.
fn collected(state: &mut Network, saved: &Network, collects: bool) -> u64 {
    state.clone_from(black_box(saved));
    let removed = if collects { state.collect().unwrap_or(0) } else { 0 };
    removed as u64 + black_box(&*state).sites as u64
}

/// A copy of a state, and its round.
fn rounded(state: &mut Network, saved: &Network) -> u64 {
    state.clone_from(black_box(saved));
    let epoch = state.round().unwrap_or(0);
    epoch as u64 + black_box(&*state).sites as u64
}

fn once(letter: &str, state: &mut Network, saved: &Network, buffer: &mut [u8]) -> u64 {
    match letter {
        "e" => almost_empty(state),
        "f" => full(state),
        "h" => black_box(&*state).well_shaped() as u64,
        "w" => black_box(&*state).waiting(7).map_or(0, |report| ordered(&report.items[..report.len])),
        "o" => match black_box(&*state).origin(255, 0) {
            Ok(Origin::Commit(record)) => record as u64,
            _ => 0,
        },
        "c" | "C" => collected(state, saved, true),
        "m" => collected(state, saved, false),
        "g" => rounded(state, saved),
        "x" => black_box(&*state).export(buffer).unwrap_or(0) as u64,
        "k" => file::read(black_box(&*buffer)).map_or(0, |f| f.records as u64),
        "r" => file::read(black_box(&*buffer)).map_or(0, |f| f.records().map(|r| digest(black_box(&r))).sum()),
        _ => (0..256).map(|k| file::record(black_box(&*buffer), k).map_or(0, |r| digest(black_box(&r)))).sum(),
    }
}

/// How often each kind of call is made, as in bench/speed.c.
fn times(letter: &str) -> u32 {
    match letter {
        "e" => 20,
        "f" => 2,
        "h" => 100_000,
        "R" => 100,
        _ => 10_000,
    }
}

fn main() {
    let mut state = Network::default();
    let Some(letter) = std::env::args().nth(1) else {
        println!("{}", almost_empty(&mut state));
        println!("{}", full(&mut state));
        return;
    };
    match letter.as_str() {
        "g" => unheard(&mut state),
        _ => season(&mut state, letter == "C"),
    }
    let saved = state.clone();
    fill(&mut state);
    let mut buffer = [0u8; file::LONGEST];
    let length = state.export(&mut buffer).unwrap_or(0);
    let sum: u64 = (0..times(&letter)).map(|_| once(&letter, &mut state, &saved, &mut buffer[..length])).sum();
    println!("{sum}");
}
