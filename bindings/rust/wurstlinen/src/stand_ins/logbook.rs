//! A word whose history only grows, with the calls of Rattle's `logbook`. The history itself exists only in proofs.

use std::marker::PhantomData;
use std::sync::atomic::{AtomicU64, Ordering};

pub trait Rule<E, A> {}

pub trait Gain<E, A> {}

pub trait Play<E, A> {}

pub trait Plain<X, E, A> {}

pub struct Start<E, A, P>(PhantomData<fn(E, A, P)>);

pub struct Seen<E, A, P>(PhantomData<fn(E, A, P)>);

pub struct Offer<E, A, P, G>(PhantomData<fn(E, A, P, G)>);

pub struct Pen;

pub struct Word<E, A, P>(AtomicU64, PhantomData<fn(E, A, P)>);

impl<E, A, P> Start<E, A, P> {
    pub fn alone() -> Start<E, A, P> {
        Start(PhantomData)
    }
}

impl<E, A, P> Seen<E, A, P> {
    pub fn open(_: Start<E, A, P>, _: u64, _: u64) -> (Seen<E, A, P>, Pen, Pen) {
        (Seen(PhantomData), Pen, Pen)
    }

    pub fn again(&self) -> Seen<E, A, P> {
        Seen(PhantomData)
    }

    pub fn learn(&mut self, _: &Seen<E, A, P>) {}

    pub fn no_pen(&self) -> Pen {
        Pen
    }

    pub fn plain<G, X, M>(&self, _: &X) -> Offer<E, A, P, G> {
        Offer(PhantomData)
    }
}

impl<E, A, P> Word<E, A, P> {
    pub fn tracked(bits: u64, _: &mut Pen) -> Word<E, A, P> {
        Word(AtomicU64::new(bits), PhantomData)
    }

    pub fn compare_exchange<M, G>(
        &self,
        old: u64,
        new: u64,
        _: &mut Seen<E, A, P>,
        _: &mut Offer<E, A, P, G>,
        _: &mut Pen,
    ) -> u64 {
        match self.0.compare_exchange(old, new, Ordering::SeqCst, Ordering::SeqCst) {
            Ok(found) | Err(found) => found,
        }
    }
}
