//! Memory lent to the library, with guard elements before and behind it, and the state expected of it after each call: for each
//! input there is one answer and one state of lent memory.

use second::gen::Rng;
use std::fmt::Debug;
use std::hint::black_box;
use std::ops::Range;

/// An element of a lent buffer.
pub trait Element: Copy + Debug + PartialEq {
    fn of_bits(bits: u64) -> Self;
}

macro_rules! elements {
    ($($kind:ty)*) => {$(
        impl Element for $kind {
            fn of_bits(bits: u64) -> Self { bits as $kind }
        }
    )*};
}
elements!(u8 i8 u32 u64);

/// Guard elements on each side.
const GUARD: usize = 8;

/// The memory and what is expected of it, guards too; `length` elements behind the first guard are lent.
#[derive(Clone)]
pub struct Lent<T> {
    memory: Vec<T>,
    expected: Vec<T>,
    length: usize,
}

impl<T: Element> Lent<T> {
    pub fn of(body: &[T]) -> Self {
        let guard: Vec<T> = (0..GUARD as u32).map(|i| T::of_bits(0xA5C3_0FF1_9669_5A3C_u64.rotate_right(i))).collect();
        let memory = [&guard, body, &guard].concat();
        Lent { expected: memory.clone(), memory, length: body.len() }
    }

    /// A buffer of `length` elements that hold anything.
    pub fn random(rng: &mut Rng, length: usize) -> Self {
        let body: Vec<T> = (0..length).map(|_| T::of_bits(rng.next())).collect();
        Self::of(&body)
    }

    /// Lends only this many elements from now on; the others are guards.
    pub fn shorten(&mut self, length: usize) {
        self.length = length;
    }

    pub fn body(&self) -> &[T] {
        &self.memory[GUARD..GUARD + self.length]
    }

    pub fn body_mut(&mut self) -> &mut [T] {
        &mut self.memory[GUARD..GUARD + self.length]
    }

    /// Whatever these elements of the body now are is expected.
    pub fn allow_change(&mut self, range: Range<usize>) {
        let range = range.start + GUARD..range.end + GUARD;
        self.expected[range.clone()].copy_from_slice(&self.memory[range]);
    }

    /// Elements of the body are expected to be these from `place` on, as many as it holds.
    pub fn expect(&mut self, place: usize, elements: &[T]) {
        let body = &mut self.expected[GUARD..GUARD + self.length];
        body.iter_mut().skip(place).zip(elements).for_each(|(expected, &element)| *expected = element);
    }

    /// Says where the memory, guards too, is not as expected: as it was lent, but for the elements named since.
    pub fn difference(&mut self) -> Option<String> {
        // The memory may have changed behind the compiler's back: it was lent as constant, too.
        let memory = black_box(&mut self.memory);
        if *memory == self.expected {
            return None;
        }
        let at = memory.iter().zip(&self.expected).position(|(now, expected)| now != expected)?;
        let place = at as i64 - GUARD as i64;
        Some(format!("element {place} of {} is {:?}, expected {:?}", self.length, memory[at], self.expected[at]))
    }

    /// The difference of memory that a call writes to: these elements from its start on.
    pub fn check(&mut self, written: &[T]) -> Option<String> {
        self.expect(0, written);
        self.difference()
    }
}

/// A length for `exact` elements: none, fewer, one fewer, exact, more; exact half of the time.
pub fn around(rng: &mut Rng, exact: usize) -> usize {
    match rng.next() % 8 {
        0 => 0,
        1 => rng.within(0, exact as u64) as usize,
        2 => exact.saturating_sub(1),
        3 => exact + rng.within(1, 9) as usize,
        _ => exact,
    }
}
