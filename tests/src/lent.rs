//! Buffers lent to the engine, with guard bytes before and behind.

use sulgheti::ffi;

use crate::book::{Call, Litres};
use crate::records::{Edition, ONE};
use crate::rng::Rng;

pub struct Lent {
    all: Vec<u8>,
    before: Vec<u8>,
    start: usize,
    len: usize,
}

impl Lent {
    /// `bytes` at any alignment between guard bytes. The guard behind begins with `behind`.
    pub fn new(rng: &mut Rng, bytes: &[u8], behind: &[u8]) -> Lent {
        let start = 8 + rng.below(16);
        let fill = rng.byte();
        let mut all = vec![fill; start];
        all.extend(bytes);
        all.extend(behind);
        all.resize(all.len() + 24, !fill);
        Lent { before: all.clone(), all, start, len: bytes.len() }
    }

    pub fn bytes(&self) -> &[u8] {
        &self.all[self.start..self.start + self.len]
    }

    /// Whether every byte from place `from` of the buffer is as it was, and both guards.
    pub fn unchanged_from(&self, from: usize) -> bool {
        let from = self.start + from;
        self.all[..self.start] == self.before[..self.start] && self.all[from..] == self.before[from..]
    }

    /// Whether both guards are as they were.
    pub fn kept_around(&self) -> bool {
        let end = self.start + self.len;
        self.all[..self.start] == self.before[..self.start] && self.all[end..] == self.before[end..]
    }

    fn at_mut(&mut self) -> *mut u8 {
        self.all[self.start..].as_mut_ptr()
    }

    fn at(&self) -> *const u8 {
        self.all[self.start..].as_ptr()
    }
}

pub fn check(list: &Lent, plan: &Lent) -> i64 {
    // SAFETY: both are valid for their lengths.
    unsafe { ffi::sulgheti_check(list.at(), list.len, plan.at(), plan.len) }
}

pub fn make(list: &Lent, out: &mut Lent) -> i64 {
    // SAFETY: both are valid for their lengths and do not overlap.
    unsafe { ffi::sulgheti_make(list.at(), list.len, out.at_mut(), out.len) }
}

/// A list put to the way from an edition: up from edition 1, back from edition 2.
pub fn convert_list(from: Edition, list: &Lent, out: &mut Lent) -> i64 {
    let way = if from == ONE { ffi::sulgheti_upgrade_list } else { ffi::sulgheti_downgrade_list };
    // SAFETY: both are valid for their lengths and do not overlap.
    unsafe { way(list.at(), list.len, out.at_mut(), out.len) }
}

/// A list and its plan put to the way from an edition; the plan's length goes to `written`.
pub fn convert_plan(
    from: Edition,
    list: &Lent,
    plan: &Lent,
    list_out: &mut Lent,
    plan_out: &mut Lent,
    written: &mut usize,
) -> i64 {
    let way = if from == ONE { ffi::sulgheti_upgrade_plan } else { ffi::sulgheti_downgrade_plan };
    let (n, m, list_room, plan_room) = (list.len, plan.len, list_out.len, plan_out.len);
    // SAFETY: all are valid for their lengths and do not overlap.
    unsafe { way(list.at(), n, plan.at(), m, list_out.at_mut(), list_room, plan_out.at_mut(), plan_room, written) }
}

/// A desk's answer, and what stands where its figures go.
#[derive(Clone, Copy, Debug, PartialEq, Eq)]
pub struct Reply {
    pub code: i64,
    pub first: u64,
    pub second: u64,
    pub difference: i64,
}

/// A desk call; `given` is a load's list or a proposal's plan, `figures` what stood where the figures go.
pub fn desk(call: &Call, store: &mut Lent, table: &mut Lent, given: &Lent, buffer: &mut Lent, figures: Reply) -> Reply {
    let mut r = figures;
    let (n, m) = (store.len, table.len);
    // SAFETY: all are valid for their lengths and do not overlap.
    r.code = unsafe {
        match *call {
            Call::Load(_) => ffi::sulgheti_load(store.at_mut(), n, table.at_mut(), m, given.at(), given.len),
            Call::Change(site, Litres::Bits16(litres)) => {
                ffi::sulgheti_change(store.at_mut(), n, table.at_mut(), m, site, litres)
            }
            Call::Change(site, Litres::Bits32(litres)) => {
                ffi::sulgheti_change2(store.at_mut(), n, table.at_mut(), m, site, litres)
            }
            Call::Add(first, second, Litres::Bits16(litres)) => {
                ffi::sulgheti_add(store.at_mut(), n, table.at_mut(), m, first, second, litres)
            }
            Call::Add(first, second, Litres::Bits32(litres)) => {
                ffi::sulgheti_add2(store.at_mut(), n, table.at_mut(), m, first, second, litres)
            }
            Call::Propose(_) => ffi::sulgheti_propose(store.at_mut(), n, table.at(), m, given.at(), given.len),
            Call::Written(_) => ffi::sulgheti_written(store.at(), n, table.at(), m, buffer.at_mut(), buffer.len),
            Call::Share(site) => ffi::sulgheti_share(store.at(), n, table.at(), m, site, &mut r.first, &mut r.second),
            Call::Depot(depot) => ffi::sulgheti_depot(store.at(), n, table.at(), m, depot, &mut r.first, &mut r.second),
            Call::Difference(a, b) => {
                ffi::sulgheti_difference(store.at(), n, table.at(), m, a, b, &mut r.difference, &mut r.second)
            }
            Call::AtLeast(mark) => ffi::sulgheti_at_least(store.at(), n, table.at(), m, mark, &mut r.first),
            Call::List(_) => ffi::sulgheti_list(store.at(), n, table.at(), m, buffer.at_mut(), buffer.len),
        }
    };
    r
}

/// The step of a store and its table, which are only read, to edition 2.
pub fn migrate(store: &Lent, table: &Lent, store2: &mut Lent, table2: &mut Lent) -> i64 {
    let (k, l) = (store2.len, table2.len);
    // SAFETY: all are valid for their lengths and do not overlap.
    unsafe {
        ffi::sulgheti_migrate(store.at(), store.len, table.at(), table.len, store2.at_mut(), k, table2.at_mut(), l)
    }
}

/// A fresh store by the function of an edition.
pub fn fresh(e: Edition, store: &mut Lent) -> i64 {
    // SAFETY: the store is valid for its length.
    unsafe {
        if e == ONE {
            ffi::sulgheti_fresh(store.at_mut(), store.len)
        } else {
            ffi::sulgheti_fresh2(store.at_mut(), store.len)
        }
    }
}
