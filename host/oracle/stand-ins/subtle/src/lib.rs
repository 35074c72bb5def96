//! Stand-in for `subtle`: choices, selection, equality and `CtOption`.
//!
//! What the comparison rests on here:
//! - `ct_eq` of two bytes: with `Field::is_zero` it is the test for a zero identifier;
//! - `CtOption`: its choice decides whether `invert` has an inverse, and `expect` panics where it
//!   has none (division by zero);
//! - `Choice`: a zero test's byte becomes a choice, and a choice becomes a `bool`.

use core::hint::black_box;

/// 0 or 1. The barrier keeps the compiler from turning a choice into a jump, as in `subtle`.
#[derive(Clone, Copy, Debug)]
pub struct Choice(u8);

impl Choice {
    pub fn unwrap_u8(&self) -> u8 {
        self.0
    }
}

impl From<u8> for Choice {
    /// A byte that is neither 0 nor 1 would be a fault of a zero test: it must not pass unseen.
    fn from(byte: u8) -> Self {
        assert!(byte <= 1, "a choice of {byte}");
        Choice(black_box(byte))
    }
}

impl From<Choice> for bool {
    fn from(choice: Choice) -> bool {
        choice.0 != 0
    }
}

impl core::ops::BitOr for Choice {
    type Output = Choice;

    fn bitor(self, other: Choice) -> Choice {
        Choice::from(self.0 | other.0)
    }
}

pub trait ConstantTimeEq {
    fn ct_eq(&self, other: &Self) -> Choice;
}

impl ConstantTimeEq for u8 {
    fn ct_eq(&self, other: &Self) -> Choice {
        let difference = self ^ other;
        let differs = (difference | difference.wrapping_neg()) >> 7;
        Choice::from(differs ^ 1)
    }
}

pub trait ConditionallySelectable: Copy {
    /// `a` for choice 0, `b` for choice 1.
    fn conditional_select(a: &Self, b: &Self, choice: Choice) -> Self;

    fn conditional_assign(&mut self, other: &Self, choice: Choice) {
        *self = Self::conditional_select(self, other, choice);
    }
}

impl ConditionallySelectable for u8 {
    fn conditional_select(a: &Self, b: &Self, choice: Choice) -> Self {
        let mask = choice.0.wrapping_neg();
        a ^ (mask & (a ^ b))
    }
}

/// A value that counts only where the choice is 1.
#[derive(Clone, Copy, Debug)]
pub struct CtOption<T> {
    value: T,
    is_some: Choice,
}

impl<T> CtOption<T> {
    pub fn new(value: T, is_some: Choice) -> Self {
        CtOption { value, is_some }
    }

    pub fn expect(self, message: &str) -> T {
        Option::from(self).expect(message)
    }
}

impl<T> From<CtOption<T>> for Option<T> {
    fn from(option: CtOption<T>) -> Option<T> {
        bool::from(option.is_some).then_some(option.value)
    }
}
