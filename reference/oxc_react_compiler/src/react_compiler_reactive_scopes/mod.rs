pub mod build_reactive_function;

/// The lines on which `visit_block` and `visit_value_block` look up the block that they visit.
pub const VISIT_BLOCK_LINE: u32 = 311;
pub const VISIT_VALUE_BLOCK_LINE: u32 = 921;

#[cfg(test)]
mod tests {
    /// Of the four look-ups of a block, two are those of visits.
    #[test]
    fn visit_lines() {
        let source = include_str!("build_reactive_function.rs");
        let looks = |text: &str| -> Vec<u32> {
            let lines = source.lines().zip(1..);
            lines.filter(|(line, _)| line.contains(text)).map(|(_, number)| number).collect()
        };
        assert_eq!(looks("let block = &self.hir.body.blocks[&block_id];"), [super::VISIT_BLOCK_LINE, super::VISIT_VALUE_BLOCK_LINE]);
        assert_eq!(looks(".blocks[").len(), 4);
    }
}
