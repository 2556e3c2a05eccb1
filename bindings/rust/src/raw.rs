//! The C interface, as bindings/c/gevrolen.h declares it.
use crate::{ITEMS, OPERATIONS, SITES, WORDS};

#[repr(C)]
#[derive(Default)]
pub struct Stamp {
    pub epoch: u32,
    pub length: u32,
    pub tuples: [Tuple; SITES],
}

#[repr(C)]
#[derive(Clone, Copy, Default)]
pub struct Tuple {
    pub site: u32,
    pub count: u32,
}

#[repr(C)]
#[derive(Clone, Copy, Default)]
pub struct Operation {
    pub kind: u32,
    pub item: u32,
    pub value: i32,
}

#[repr(C)]
#[derive(Default)]
pub struct Committed {
    pub stamp: Stamp,
    pub count: u32,
    pub values: [i32; OPERATIONS],
}

#[repr(C)]
#[derive(Default)]
pub struct Scheduled {
    pub parent: u32,
    pub stamp: Stamp,
}

#[repr(C)]
pub struct Report {
    pub count: u32,
    pub items: [u32; ITEMS],
}

#[repr(C)]
pub struct Table {
    pub count: u32,
    pub values: [i32; ITEMS],
}

#[repr(C)]
pub struct Base {
    pub folded: u32,
    pub count: u32,
    pub values: [i32; ITEMS],
}

impl Default for Base {
    fn default() -> Base {
        Base { folded: 0, count: 0, values: [0; ITEMS] }
    }
}

#[repr(C)]
#[derive(Default)]
pub struct Line {
    pub held: u32,
    pub arrived: u32,
}

#[repr(C)]
#[derive(Default)]
pub struct Origin {
    pub kind: u32,
    pub record: u32,
}

#[repr(C)]
#[derive(Default)]
pub struct File {
    pub start: usize,
    pub length: usize,
    pub records: usize,
    pub sites: usize,
    pub items: usize,
}

#[repr(C)]
#[derive(Default)]
pub struct Record {
    pub site: u32,
    pub count: u32,
    pub stamp: Stamp,
    pub operations: [Operation; OPERATIONS],
}

#[repr(C)]
#[derive(Default)]
pub struct Compared {
    pub epochs_differ: u32,
    pub shared: u32,
}

#[repr(C)]
#[derive(Default)]
pub struct Progress {
    pub used: usize,
    pub filled: usize,
}

type State = [u32; WORDS];
type Places = [u8; SITES];

// A pointer and the length behind it are a list of so many elements, and the pointer is never null; a `mut` pointer to a struct or to places is one to write to. The
// library keeps none of them, and takes any values behind them.
extern "C" {
    pub fn gevrolen_version() -> u32;
    pub fn gevrolen_words() -> usize;
    pub fn gevrolen_set_up(state: *mut State, sites: u32, items: u32, primaries: *const u32, primary_count: usize, masks: *const u8, mask_count: usize) -> u32;
    pub fn gevrolen_commit(state: *mut State, site: u32, operations: *const Operation, count: usize, answer: *mut Committed) -> u32;
    pub fn gevrolen_commit_lists(
        state: *mut State,
        site: u32,
        kinds: *const u8,
        kind_count: usize,
        items: *const u32,
        item_count: usize,
        values: *const i32,
        value_count: usize,
        answer: *mut Committed,
    ) -> u32;
    pub fn gevrolen_dummy(state: *mut State, site: u32, stamp: *mut Stamp) -> u32;
    pub fn gevrolen_epoch(state: *mut State, site: u32, number: u32) -> u32;
    pub fn gevrolen_deliver(state: *mut State, parent: u32, child: u32) -> u32;
    pub fn gevrolen_schedule(state: *mut State, site: u32, answer: *mut Scheduled) -> u32;
    pub fn gevrolen_collect(state: *mut State, removed: *mut u32) -> u32;
    pub fn gevrolen_round(state: *mut State, epoch: *mut u32) -> u32;
    pub fn gevrolen_waiting(state: *const State, site: u32, answer: *mut Report) -> u32;
    pub fn gevrolen_table(state: *const State, site: u32, answer: *mut Table) -> u32;
    pub fn gevrolen_stamp(state: *const State, site: u32, answer: *mut Stamp) -> u32;
    pub fn gevrolen_line(state: *const State, parent: u32, child: u32, answer: *mut Line) -> u32;
    pub fn gevrolen_origin(state: *const State, record: u32, operation: u32, answer: *mut Origin) -> u32;
    pub fn gevrolen_places(state: *const State, places: *mut Places) -> u32;
    pub fn gevrolen_base(state: *const State, answer: *mut Base) -> u32;
    pub fn gevrolen_compare(first: *const Stamp, second: *const Stamp, places: *const Places, answer: *mut Compared) -> i32;
    pub fn gevrolen_export(state: *const State, buffer: *mut u8, room: usize, length: *mut usize) -> u32;
    pub fn gevrolen_read(buffer: *const u8, length: usize, answer: *mut File, places: *mut Places, base: *mut Base) -> u32;
    pub fn gevrolen_record(buffer: *const u8, length: usize, number: usize, answer: *mut Record) -> u32;
    pub fn gevrolen_record_from(
        part: *const u8,
        length: usize,
        from: usize,
        sites: u32,
        items: u32,
        places: *const Places,
        answer: *mut Record,
        next: *mut usize,
    ) -> u32;
    pub fn gevrolen_script(state: *mut State, text: *const u8, length: usize, answer: *mut u8) -> usize;
    pub fn gevrolen_run(state: *mut State, text: *const u8, length: usize, answers: *mut u8, room: usize, progress: *mut Progress);
}
