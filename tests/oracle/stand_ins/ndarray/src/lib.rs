//! The little of `ndarray` that the given Rust calls: a vector with a name.
use std::ops::{Deref, DerefMut};

#[derive(Clone, Debug)]
pub struct Array1<A>(Vec<A>);

impl<A: Clone + Default> Array1<A> {
    pub fn zeros(len: usize) -> Self {
        Self(vec![A::default(); len])
    }
}

impl<A> FromIterator<A> for Array1<A> {
    fn from_iter<I: IntoIterator<Item = A>>(items: I) -> Self {
        Self(items.into_iter().collect())
    }
}

impl<A> Deref for Array1<A> {
    type Target = [A];
    fn deref(&self) -> &[A] {
        &self.0
    }
}

impl<A> DerefMut for Array1<A> {
    fn deref_mut(&mut self) -> &mut [A] {
        &mut self.0
    }
}

impl<'a, A> IntoIterator for &'a Array1<A> {
    type Item = &'a A;
    type IntoIter = std::slice::Iter<'a, A>;
    fn into_iter(self) -> Self::IntoIter {
        self.0.iter()
    }
}
