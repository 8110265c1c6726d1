//! Stands in for the crate's `environment`: the arena and the identifiers. The walk asks for one by index, the
//! drop-in by `get`.

use std::ops::Index;

use oxc_allocator::Allocator;

use super::{Identifier, IdentifierId};

pub struct Environment<'a> {
    pub allocator: &'a Allocator,
    pub identifiers: Identifiers<'a>,
}

pub struct Identifiers<'a>(pub Vec<Identifier<'a>>);

impl<'a> Identifiers<'a> {
    pub fn get(&self, identifier: IdentifierId) -> Option<&Identifier<'a>> {
        self.0.get(identifier.index())
    }
}

impl<'a> Index<IdentifierId> for Identifiers<'a> {
    type Output = Identifier<'a>;

    fn index(&self, identifier: IdentifierId) -> &Identifier<'a> {
        &self.0[identifier.index()]
    }
}
