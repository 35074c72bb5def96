//! Stand-in for `generic-array`: the shape of its array type, so that the text's implementations for it
//! compile.
//!
//! No behaviour of the comparison rests on it: split and combine of bytes use vectors.

use core::marker::PhantomData;
use core::ops::{Deref, DerefMut};

pub trait ArrayLength {
    fn to_usize() -> usize;
}

#[derive(Debug)]
pub struct GenericArray<T, N> {
    elements: Vec<T>,
    length: PhantomData<N>,
}

impl<T, N: ArrayLength> GenericArray<T, N> {
    /// The elements, if there are exactly as many as the type says.
    pub fn try_from_iter(elements: impl IntoIterator<Item = T>) -> Option<Self> {
        let elements: Vec<T> = elements.into_iter().collect();
        (elements.len() == N::to_usize()).then_some(GenericArray {
            elements,
            length: PhantomData,
        })
    }
}

// Written out, since a derived one would ask the length type to be `Clone`.
impl<T: Clone, N> Clone for GenericArray<T, N> {
    fn clone(&self) -> Self {
        GenericArray {
            elements: self.elements.clone(),
            length: PhantomData,
        }
    }
}

impl<T: Default, N: ArrayLength> Default for GenericArray<T, N> {
    fn default() -> Self {
        GenericArray {
            elements: (0..N::to_usize()).map(|_| T::default()).collect(),
            length: PhantomData,
        }
    }
}

impl<T, N> Deref for GenericArray<T, N> {
    type Target = [T];

    fn deref(&self) -> &[T] {
        &self.elements
    }
}

impl<T, N> DerefMut for GenericArray<T, N> {
    fn deref_mut(&mut self) -> &mut [T] {
        &mut self.elements
    }
}

impl<T, N> AsRef<[T]> for GenericArray<T, N> {
    fn as_ref(&self) -> &[T] {
        self
    }
}

impl<T, N> AsMut<[T]> for GenericArray<T, N> {
    fn as_mut(&mut self) -> &mut [T] {
        self
    }
}
