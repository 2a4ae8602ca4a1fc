//! A ring with one producer and one consumer, with the calls of Rattle's `rtrb`. Plain and safe; it isn't lock-free.

use crate::rattle::alloc::{AllocError, Global};
use std::collections::VecDeque;
use std::sync::{Arc, Mutex, MutexGuard};

type Shared<T> = Arc<Mutex<Items<T>>>;

struct Items<T> {
    behind: VecDeque<T>,
    /// Whether the consumer holds the oldest item, which still takes a slot.
    held: bool,
}

impl<T> Items<T> {
    fn len(&self) -> usize {
        self.behind.len() + usize::from(self.held)
    }
}

fn locked<T>(shared: &Shared<T>) -> MutexGuard<'_, Items<T>> {
    shared.lock().unwrap_or_else(|poisoned| poisoned.into_inner())
}

/// A ring is made by its producer's type.
pub type RingBuffer<T> = Producer<T>;

impl<T> Producer<T> {
    /// Both ends of a ring.
    pub fn new(_: Global, capacity: usize) -> Result<(Producer<T>, Consumer<T>), AllocError> {
        let mut items = VecDeque::new();
        if items.try_reserve_exact(capacity).is_err() {
            return Err(AllocError);
        }
        let shared = Arc::new(Mutex::new(Items { behind: items, held: false }));
        let producer = Producer { shared: shared.clone(), capacity, free: capacity };
        Ok((producer, Consumer { shared, capacity, there: 0, front: None }))
    }
}

pub struct Producer<T> {
    shared: Shared<T>,
    capacity: usize,
    free: usize,
}

impl<T> Producer<T> {
    pub fn slots(&mut self) -> usize {
        self.free = self.capacity - locked(&self.shared).len();
        self.free
    }

    pub fn cached_slots(&self) -> usize {
        self.free
    }

    pub fn slots_beside(&mut self, _: &mut Consumer<T>) -> usize {
        self.slots()
    }

    pub fn is_full(&mut self) -> bool {
        self.slots() == 0
    }

    /// Adds an item for which there is a slot.
    pub fn push_reserved(&mut self, item: T) {
        assert!(self.free > 0);
        self.free -= 1;
        locked(&self.shared).behind.push_back(item);
    }

    pub fn capacity(&self) -> usize {
        self.capacity
    }
}

pub struct Consumer<T> {
    shared: Shared<T>,
    capacity: usize,
    there: usize,
    front: Option<T>,
}

impl<T> Consumer<T> {
    pub fn slots(&mut self) -> usize {
        let mut items = locked(&self.shared);
        if self.front.is_none() {
            self.front = items.behind.pop_front();
            items.held = self.front.is_some();
        }
        self.there = items.len();
        self.there
    }

    pub fn cached_slots(&self) -> usize {
        self.there
    }

    pub fn slots_beside(&mut self, _: &mut Producer<T>) -> usize {
        self.slots()
    }

    /// Takes an item that is there.
    pub fn pop_known(&mut self) -> T {
        assert!(self.there > 0);
        let item = self.front.take().unwrap();
        let mut items = locked(&self.shared);
        self.front = items.behind.pop_front();
        items.held = self.front.is_some();
        self.there -= 1;
        item
    }

    /// The oldest item, which is there.
    pub fn peek_known(&self) -> &T {
        self.front.as_ref().unwrap()
    }

    pub fn is_empty(&mut self) -> bool {
        self.slots() == 0
    }

    pub fn capacity(&self) -> usize {
        self.capacity
    }
}
