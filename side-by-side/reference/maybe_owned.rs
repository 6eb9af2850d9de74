//! Stands in for the crate of this name: a value, or a reference to one.

use std::ops::{Deref, DerefMut};

pub enum MaybeOwned<'a, T> {
    Owned(T),
    Borrowed(&'a T),
}

pub enum MaybeOwnedMut<'a, T> {
    Owned(T),
    Borrowed(&'a mut T),
}

impl<T> Deref for MaybeOwned<'_, T> {
    type Target = T;

    fn deref(&self) -> &T {
        match self {
            MaybeOwned::Owned(value) => value,
            MaybeOwned::Borrowed(value) => value,
        }
    }
}

impl<T> Deref for MaybeOwnedMut<'_, T> {
    type Target = T;

    fn deref(&self) -> &T {
        match self {
            MaybeOwnedMut::Owned(value) => value,
            MaybeOwnedMut::Borrowed(value) => value,
        }
    }
}

impl<T> DerefMut for MaybeOwnedMut<'_, T> {
    fn deref_mut(&mut self) -> &mut T {
        match self {
            MaybeOwnedMut::Owned(value) => value,
            MaybeOwnedMut::Borrowed(value) => value,
        }
    }
}
