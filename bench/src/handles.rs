//! Handle tables, against a slab: a Vec whose empty entries form a list.

use crate::measure::{Rival, nanoseconds};
use std::hint::black_box;

unsafe extern "C" {
    fn cm_bench_handles_add(count: u32, rounds: u32) -> u64;
    fn cm_bench_handles_get(count: u32, rounds: u32) -> u64;
    fn cm_bench_handles_lend(count: u32, rounds: u32) -> u64;
    fn cm_bench_handles_drop(count: u32, rounds: u32) -> u64;
}

#[derive(Clone, Copy, PartialEq, Eq)]
struct ResourceId {
    component: u32,
    number: u32,
}

const RESOURCE: ResourceId = ResourceId {
    component: 0,
    number: 0,
};

/// The greatest index.
const GREATEST: usize = 65_535;

/// A handle is lent so often at most.
const MOST_LENDS: u128 = 1 << 100;

#[derive(Clone, Copy)]
#[allow(dead_code)]
enum Kind {
    Owned,
    Borrowed { call: u32 },
}

#[derive(Clone, Copy)]
#[allow(dead_code)]
struct Handle {
    resource: ResourceId,
    serial: u64,
    rep: u32,
    lends: u128,
    kind: Kind,
}

#[derive(Clone, Copy)]
enum Fault {
    NoHandle,
    WrongResource,
    StillLent,
    Full,
}

enum Entry {
    Vacant(u32),
    Occupied(Handle),
}

/// Handles under indices from 1 on; the index freed last is used first.
#[derive(Default)]
struct Slab {
    entries: Vec<Entry>,
    /// The index freed last, or 0.
    next: u32,
}

impl Slab {
    fn add(&mut self, handle: Handle) -> Result<u32, Fault> {
        if self.next == 0 {
            if self.entries.len() == GREATEST {
                return Err(Fault::Full);
            }
            self.entries.push(Entry::Occupied(handle));
            return Ok(self.entries.len() as u32);
        }
        let index = self.next;
        let entry = &mut self.entries[index as usize - 1];
        match *entry {
            Entry::Vacant(next) => self.next = next,
            Entry::Occupied(_) => unreachable!(),
        }
        *entry = Entry::Occupied(handle);
        Ok(index)
    }

    fn get(&self, index: u32, resource: ResourceId) -> Result<&Handle, Fault> {
        match self.entries.get((index as usize).wrapping_sub(1)) {
            Some(Entry::Occupied(handle)) if handle.resource == resource => Ok(handle),
            Some(Entry::Occupied(_)) => Err(Fault::WrongResource),
            _ => Err(Fault::NoHandle),
        }
    }

    fn get_mut(&mut self, index: u32, resource: ResourceId) -> Result<&mut Handle, Fault> {
        match self.entries.get_mut((index as usize).wrapping_sub(1)) {
            Some(Entry::Occupied(handle)) if handle.resource == resource => Ok(handle),
            Some(Entry::Occupied(_)) => Err(Fault::WrongResource),
            _ => Err(Fault::NoHandle),
        }
    }

    fn lend(&mut self, index: u32, resource: ResourceId) -> Result<Handle, Fault> {
        let handle = self.get_mut(index, resource)?;
        let lent = *handle;
        handle.lends += 1;
        Ok(lent)
    }

    fn drop_handle(&mut self, index: u32, resource: ResourceId) -> Result<Handle, Fault> {
        let handle = *self.get(index, resource)?;
        if handle.lends > 0 {
            return Err(Fault::StillLent);
        }
        self.entries[index as usize - 1] = Entry::Vacant(self.next);
        self.next = index;
        Ok(handle)
    }
}

fn owned(rep: u32) -> Handle {
    Handle {
        resource: RESOURCE,
        serial: u64::from(rep),
        rep,
        lends: 0,
        kind: Kind::Owned,
    }
}

fn add_all(slab: &mut Slab, count: u32) -> u64 {
    let mut sum = 0u64;
    for rep in 0..count {
        if let Ok(index) = slab.add(owned(rep)) {
            sum = sum.wrapping_add(u64::from(index));
        }
    }
    sum
}

fn get_all(slab: &Slab, count: u32) -> u64 {
    let mut sum = 0u64;
    for at in 0..count {
        if let Ok(handle) = slab.get(at + 1, RESOURCE) {
            sum = sum.wrapping_add(u64::from(handle.rep));
        }
    }
    sum
}

fn lend_all(slab: &mut Slab, count: u32) -> u64 {
    let mut sum = 0u64;
    for at in 0..count {
        match slab.get(at + 1, RESOURCE) {
            Ok(handle) if handle.lends < MOST_LENDS => {
                if let Ok(lent) = slab.lend(at + 1, RESOURCE) {
                    sum = sum.wrapping_add(u64::from(lent.rep));
                }
            }
            _ => {}
        }
    }
    sum
}

fn drop_all(slab: &mut Slab, count: u32) -> u64 {
    let mut sum = 0u64;
    for at in 0..count {
        if let Ok(handle) = slab.drop_handle(at + 1, RESOURCE) {
            sum = sum.wrapping_add(u64::from(handle.rep));
        }
    }
    sum
}

fn slab_add(count: u32, rounds: u32) -> u64 {
    let mut sum = 0u64;
    for _ in 0..rounds {
        sum = sum.wrapping_add(add_all(&mut Slab::default(), count));
    }
    sum
}

fn slab_get(count: u32, rounds: u32) -> u64 {
    let mut slab = Slab::default();
    let mut sum = add_all(&mut slab, count);
    for _ in 0..rounds {
        sum = sum.wrapping_add(get_all(&slab, count));
    }
    sum
}

fn slab_lend(count: u32, rounds: u32) -> u64 {
    let mut slab = Slab::default();
    let mut sum = add_all(&mut slab, count);
    for _ in 0..rounds {
        sum = sum.wrapping_add(lend_all(&mut slab, count));
    }
    sum
}

fn slab_drop(count: u32, rounds: u32) -> u64 {
    let mut slab = Slab::default();
    let mut sum = add_all(&mut slab, count);
    for _ in 0..rounds {
        sum = sum.wrapping_add(drop_all(&mut slab, count));
        sum = sum.wrapping_add(add_all(&mut slab, count));
    }
    sum
}

/// The same task on both sides: a number of handles, and how often to go over them.
type Task = fn(u32, u32) -> u64;

pub fn run() {
    let tasks: [(&str, Task, Task); 4] = [
        ("add", |n, r| unsafe { cm_bench_handles_add(n, r) }, slab_add),
        ("get", |n, r| unsafe { cm_bench_handles_get(n, r) }, slab_get),
        ("get and lend", |n, r| unsafe { cm_bench_handles_lend(n, r) }, slab_lend),
        ("drop and add", |n, r| unsafe { cm_bench_handles_drop(n, r) }, slab_drop),
    ];
    println!("handle tables, a million of each (a ratio above 1: ours is faster)");
    println!("{:14} {:>8} {:>9} {:>9} {:>6}", "task", "handles", "ours ms", "slab ms", "ratio");
    for (name, ours, slab) in tasks {
        for count in [100, 1_000, 10_000, 50_000] {
            let rounds = 1_000_000 / count;
            assert_eq!(ours(count, rounds), slab(count, rounds), "{name}");
            let times = nanoseconds(&mut [
                Rival::new("ours", || {
                    black_box(ours(black_box(count), black_box(rounds)));
                }),
                Rival::new("slab", || {
                    black_box(slab(black_box(count), black_box(rounds)));
                }),
            ]);
            println!("{name:14} {count:8} {:9.2} {:9.2} {:6.2}", times[0] / 1e6, times[1] / 1e6, times[1] / times[0]);
        }
    }
}
