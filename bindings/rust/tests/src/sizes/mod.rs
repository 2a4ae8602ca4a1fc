//! No clause says that a call runs out of memory only if there is none. So each call that may, and that C doesn't have,
//! is tried with sizes, queue depths, lengths and budgets: all up to 300, those around each power of two above, and the
//! greatest. There is memory enough, so none may be refused. `bindings/tests/sizes.c` tries those that C has.
mod library;
mod program;

use std::thread;
use wurstlinen::explain::{Asked, Exchange, Heard};
use wurstlinen::log::MOST_FREE_ENTRIES;
use wurstlinen::rattle::alloc::Global;
use wurstlinen::rattle::prelude::*;
use wurstlinen::wire::{Device, DeviceSet, MOST_DEVICES, MuteAck, Uid, UidSet};

/// A call: its name with what is tried, the greatest value, and whether the call with this value has memory.
type Call = (&'static str, u64, fn(usize) -> bool);

const ENTRIES: u64 = MOST_FREE_ENTRIES as u64;
const DEVICES: u64 = MOST_DEVICES as u64;
const DEPTH: u64 = u8::MAX as u64;

/// The greatest value, where lists have no greatest length.
const LONG: u64 = 65_537;

/// The same where the time grows with the length's square.
const SHORT: u64 = 1_025;

/// The values from 0 to 300, and those around each power of two above and around the greatest one.
fn sizes(most: u64) -> impl Iterator<Item = u64> {
    let great = (9..64).map(|power| 1 << power).chain([most]);
    let around = great.flat_map(|at: u64| [at - 1, at, at.saturating_add(1)]);
    (0..=300).chain(around).filter(move |size| *size <= most)
}

/// Tries each call in a thread of its own.
fn try_each(calls: &[Call]) {
    thread::scope(|scope| {
        for (name, most, has_memory) in calls {
            scope.spawn(move || {
                for size in sizes(*most) {
                    assert!(has_memory(size as usize), "{name}: {size} is refused");
                }
            });
        }
    });
}

/// Items by their number, from 0.
fn list<T>(count: usize, item: impl Fn(usize) -> T) -> Vec<T> {
    let mut items = Vec::new(Global);
    for at in 0..count {
        assert!(items.push(item(at)).is_ok());
    }
    items
}

fn uid(at: usize) -> Uid {
    Uid::new(0x1234, at as u32)
}

fn uids(count: usize) -> Vec<Uid> {
    list(count, uid)
}

fn known(count: usize) -> UidSet {
    let mut set = UidSet::new();
    for at in 0..count {
        assert!(set.insert(uid(at)) == Ok(true));
    }
    set
}

fn device(at: usize) -> Device {
    Device { uid: uid(at), control: 0, binding: None }
}

fn devices(count: usize) -> DeviceSet {
    let mut set = DeviceSet::new();
    for at in 0..count {
        assert!(set.insert(device(at)) == Ok(true));
    }
    set
}

/// Each device is read, and acknowledges a mute. Then one UID is silent.
fn exchange(at: usize) -> Exchange {
    let uid = uid(at / 3);
    match at % 3 {
        0 => Exchange { asked: Asked::Branch { lo: uid, hi: Uid::new(0x1234, u32::MAX) }, heard: Heard::One(uid) },
        1 => Exchange { asked: Asked::Mute(uid), heard: Heard::Acked(MuteAck { control: 0, binding: None }) },
        _ => Exchange { asked: Asked::Branch { lo: uid, hi: uid }, heard: Heard::Silent },
    }
}

fn exchanges(count: usize) -> Vec<Exchange> {
    list(count, exchange)
}
