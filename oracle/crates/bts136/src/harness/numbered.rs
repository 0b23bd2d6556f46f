//! Document 01's numbered tokens around the original's timer or procedure, which has `Arc`s instead.
use super::opened::inactivity::{ArqInactivity, TransactionToken};
use std::{
    collections::BTreeMap,
    sync::{next_number, set_next_number},
};

/// Document 01 refuses a call that may take tokens while fewer than these are left.
const LEAST_LEFT: u64 = 4;

/// A timer or a procedure, the next number of its own counter, and each of its tokens that was current after a call.
pub struct Numbered<T> {
    given: T,
    next: u64,
    kept: BTreeMap<u64, TransactionToken>,
}
impl<T: AsRef<ArqInactivity>> Numbered<T> {
    pub fn new<E>(first: u64, make: impl FnOnce() -> Result<T, E>) -> Result<Self, E> {
        set_next_number(first);
        let mut made = Self {
            given: make()?,
            next: next_number(),
            kept: BTreeMap::new(),
        };
        made.keep();
        Ok(made)
    }
    /// A call that may take tokens: the thread's counter is this one's meanwhile.
    pub fn call<A>(&mut self, call: impl FnOnce(&mut T) -> A) -> A {
        set_next_number(self.next);
        let answer = call(&mut self.given);
        if self.next != next_number() {
            self.next = next_number();
            self.keep();
        }
        answer
    }
    fn keep(&mut self) {
        let current = self.timer().token();
        self.kept.insert(current.number(), current);
    }
    pub fn given(&self) -> &T {
        &self.given
    }
    pub fn timer(&self) -> &ArqInactivity {
        self.given.as_ref()
    }
    pub fn next(&self) -> u64 {
        self.next
    }
    pub fn short_of_tokens(&self) -> bool {
        u64::MAX - self.next < LEAST_LEFT
    }
    /// The original's own token of this number if it is kept, else one made up, which is no other.
    pub fn token(&self, number: u64) -> TransactionToken {
        let kept = self.kept.get(&number).cloned();
        kept.unwrap_or_else(|| TransactionToken::numbered(number))
    }
}
