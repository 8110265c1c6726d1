//! Stands in for the crate's maps. The one of blocks: the walk only looks up by index, the drop-in by `get`. The arena's two, which a block
//! has for its predecessors and phis, are lists of what was put in.

use std::ops::Index;
use std::panic::Location;

use oxc_allocator::{Allocator, CloneIn, CloneInSemanticIds, Vec as ArenaVec};

use crate::react_compiler_hir::BlockId;
use crate::react_compiler_reactive_scopes::{VISIT_BLOCK_LINE, VISIT_VALUE_BLOCK_LINE};
use walk_observer::Walk;

/// A map keyed by small numbers, as a vector, in the order of the numbers.
#[derive(Debug)]
pub struct OrderedMap<K, V> {
    values: Vec<Option<(K, V)>>,
}

impl<K, V> Default for OrderedMap<K, V> {
    fn default() -> Self {
        Self { values: Vec::new() }
    }
}

impl<V> OrderedMap<BlockId, V> {
    pub fn get(&self, block: &BlockId) -> Option<&V> {
        self.values.get(block.index())?.as_ref().map(|(_, value)| value)
    }

    pub fn insert(&mut self, block: BlockId, value: V) -> Option<V> {
        if block.index() >= self.values.len() {
            self.values.resize_with(block.index() + 1, || None);
        }
        self.values[block.index()].replace((block, value)).map(|(_, value)| value)
    }

    pub fn iter(&self) -> impl Iterator<Item = (&BlockId, &V)> {
        self.values.iter().flatten().map(|(block, value)| (block, value))
    }
}

impl<V> Index<&BlockId> for OrderedMap<BlockId, V> {
    type Output = V;

    /// A look-up. The line of the original that asks tells a visit from a mere look.
    #[track_caller]
    fn index(&self, block: &BlockId) -> &V {
        let number = block.index() as u32;
        match Location::caller().line() {
            VISIT_BLOCK_LINE => walk_observer::visit(number, Walk::Statement),
            VISIT_VALUE_BLOCK_LINE => walk_observer::visit(number, Walk::Value),
            _ => {}
        }
        self.get(block).unwrap_or_else(|| walk_observer::missing(number))
    }
}

macro_rules! lists {
    ($($name:ident<$($parameter:ident),*>: $item:ty;)*) => { $(
        #[derive(Debug)]
        pub struct $name<'a, $($parameter),*>(ArenaVec<'a, $item>);

        impl<'a, $($parameter),*> $name<'a, $($parameter),*> {
            pub fn from_iter_in(items: impl IntoIterator<Item = $item>, allocator: &&'a Allocator) -> Self {
                Self(ArenaVec::from_iter_in(items, allocator))
            }
        }

        impl<'a, $($parameter: Copy),*> CloneIn<'a> for $name<'a, $($parameter),*> {
            type Cloned = Self;

            fn clone_in_impl(&self, _: CloneInSemanticIds, allocator: &'a Allocator) -> Self {
                Self(ArenaVec::from_iter_in(self.0.iter().copied(), &allocator))
            }
        }
    )* };
}

lists! {
    ArenaOrderedMap<K, V>: (K, V);
    ArenaOrderedSet<T>: T;
}
