//! Stands in for the crate's `type_config`: two enums that an aliasing effect has. The walk copies none.

#[derive(Debug, Clone, Copy, PartialEq, Eq)]
pub enum ValueKind {
    Mutable,
    Frozen,
}

#[derive(Debug, Clone, Copy, PartialEq, Eq)]
pub enum ValueReason {
    Other,
    HookReturn,
}
