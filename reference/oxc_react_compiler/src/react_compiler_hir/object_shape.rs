//! Stands in for the crate's `object_shape`: the shapes that `mod.rs` asks for. The walk reads no type.

macro_rules! shapes {
    ($($name:ident),* $(,)?) => { $(pub const $name: &str = stringify!($name);)* };
}

shapes!(
    BUILT_IN_ARRAY_ID,
    BUILT_IN_JSX_ID,
    BUILT_IN_OBJECT_ID,
    BUILT_IN_PROPS_ID,
    BUILT_IN_REF_VALUE_ID,
    BUILT_IN_SET_STATE_ID,
    BUILT_IN_START_TRANSITION_ID,
    BUILT_IN_USE_EFFECT_EVENT_ID,
    BUILT_IN_USE_EFFECT_HOOK_ID,
    BUILT_IN_USE_INSERTION_EFFECT_HOOK_ID,
    BUILT_IN_USE_LAYOUT_EFFECT_HOOK_ID,
    BUILT_IN_USE_OPERATOR_ID,
    BUILT_IN_USE_REF_ID,
    BUILT_IN_USE_STATE_ID,
    REANIMATED_SHARED_VALUE_ID,
);
