//! Lent buffers between guards, by which a write beyond their ends is seen.

use crate::agreement::RESULT_WORDS;
use crate::LentSpaces;

/// A lent buffer between guards, which must stay as they are.
pub(crate) struct Guarded<T> {
    elements: Vec<T>,
}

impl<T: Copy + PartialEq> Guarded<T> {
    /// Puts guards made by `guard`, which takes any number, around the elements.
    pub fn around(lent: &[T], guard: fn(usize) -> T) -> Guarded<T> {
        let side = || (0..GUARD).map(guard);
        Guarded { elements: side().chain(lent.iter().copied()).chain(side()).collect() }
    }

    pub fn lent(&mut self) -> &mut [T] {
        let end = self.elements.len() - GUARD;
        &mut self.elements[GUARD..end]
    }

    /// Puts the lent elements back where they came from. Gives back whether the guards are as they
    /// were.
    pub fn give_back(self, guard: fn(usize) -> T, to: &mut [T]) -> bool {
        let (before, rest) = self.elements.split_at(GUARD);
        let (lent, after) = rest.split_at(to.len());
        to.copy_from_slice(lent);
        [before, after].iter().all(|side| side.iter().copied().eq((0..GUARD).map(guard)))
    }
}

/// Guard elements on each side of a lent buffer.
const GUARD: usize = 16;

pub(crate) fn guard_byte(index: usize) -> u8 {
    0xa5 ^ (17 * index as u8)
}

pub(crate) fn guard_word(index: usize) -> u64 {
    RESULT_WORDS[index % RESULT_WORDS.len()]
}

/// Three spaces, their labels or the counts of these, each between guards.
pub(crate) struct GuardedSpaces<T> {
    spaces: [Guarded<T>; 3],
    guard: fn(usize) -> T,
}

impl<T: Copy + PartialEq> GuardedSpaces<T> {
    pub fn around(spaces: [&Vec<T>; 3], guard: fn(usize) -> T) -> GuardedSpaces<T> {
        GuardedSpaces { spaces: spaces.map(|space| Guarded::around(space, guard)), guard }
    }

    pub fn lent(&mut self) -> LentSpaces<'_, T> {
        let [unique, register, ram] = &mut self.spaces;
        LentSpaces { unique: unique.lent(), register: register.lent(), ram: ram.lent() }
    }

    pub fn give_back(self, to: [&mut Vec<T>; 3]) -> bool {
        let mut holds = true;
        for (space, to) in self.spaces.into_iter().zip(to) {
            holds &= space.give_back(self.guard, to);
        }
        holds
    }
}
