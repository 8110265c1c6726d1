//! Stands in for `oxc_allocator`: the arena's box and vector kept in the ordinary heap.

use std::any::type_name;
use std::marker::PhantomData;
use std::ops::{Deref, DerefMut};

/// The arena. Its boxes and vectors own their memory here, so it holds nothing.
#[derive(Debug, Default)]
pub struct Allocator;

#[derive(Debug, Clone, Copy)]
pub struct CloneInSemanticIds;

/// A copy in an arena.
pub trait CloneIn<'a> {
    type Cloned;

    fn clone_in_impl(
        &self,
        semantic_ids: CloneInSemanticIds,
        allocator: &'a Allocator,
    ) -> Self::Cloned;

    /// The walk copies by this. The observer is told of the copies of terminals.
    fn clone_in(&self, allocator: &'a Allocator) -> Self::Cloned {
        // decided while compiling: a search in the name would cost the walk time at every copy
        let name = type_name::<Self>();
        if name.ends_with("::Terminal") || name.ends_with("::Terminal<'_>") {
            walk_observer::terminal_copied();
        }
        self.clone_in_impl(CloneInSemanticIds, allocator)
    }
}

#[derive(Debug)]
pub struct Box<'a, T> {
    value: std::boxed::Box<T>,
    arena: PhantomData<&'a Allocator>,
}

impl<'a, T> Box<'a, T> {
    pub fn new_in(value: T, _: &&'a Allocator) -> Self {
        Self { value: std::boxed::Box::new(value), arena: PhantomData }
    }

    pub fn unbox(self) -> T {
        *self.value
    }
}

impl<T> AsRef<T> for Box<'_, T> {
    fn as_ref(&self) -> &T {
        &self.value
    }
}

impl<T> Deref for Box<'_, T> {
    type Target = T;

    fn deref(&self) -> &T {
        &self.value
    }
}

#[derive(Debug)]
pub struct Vec<'a, T> {
    items: std::vec::Vec<T>,
    arena: PhantomData<&'a Allocator>,
}

impl<'a, T> Vec<'a, T> {
    pub fn new_in(_: &&'a Allocator) -> Self {
        Self { items: std::vec::Vec::new(), arena: PhantomData }
    }

    pub fn from_iter_in<I: IntoIterator<Item = T>>(items: I, _: &&'a Allocator) -> Self {
        Self { items: items.into_iter().collect(), arena: PhantomData }
    }

    pub fn push(&mut self, item: T) {
        self.items.push(item);
    }
}

impl<'a, T: CloneIn<'a, Cloned = T>> CloneIn<'a> for Vec<'a, T> {
    type Cloned = Self;

    fn clone_in_impl(&self, semantic_ids: CloneInSemanticIds, allocator: &'a Allocator) -> Self {
        let copies = self.items.iter().map(|item| item.clone_in_impl(semantic_ids, allocator));
        Self::from_iter_in(copies, &allocator)
    }
}

impl<T> Deref for Vec<'_, T> {
    type Target = [T];

    fn deref(&self) -> &[T] {
        &self.items
    }
}

impl<T> DerefMut for Vec<'_, T> {
    fn deref_mut(&mut self) -> &mut [T] {
        &mut self.items
    }
}

impl<T> Extend<T> for Vec<'_, T> {
    fn extend<I: IntoIterator<Item = T>>(&mut self, items: I) {
        self.items.extend(items);
    }
}

impl<T> IntoIterator for Vec<'_, T> {
    type Item = T;
    type IntoIter = std::vec::IntoIter<T>;

    fn into_iter(self) -> Self::IntoIter {
        self.items.into_iter()
    }
}
