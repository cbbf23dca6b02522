//! Small expressions.

/// 10,000 expressions of four forms in turns: two that both the tokens and the values use, and two others.
pub fn small(others: [fn(usize) -> String; 2]) -> Vec<String> {
    (0..10_000)
        .map(|i| match i % 4 {
            0 => format!("$(SETTING_{:04}) == TRUE", i % 500),
            1 => format!("({i} + 0x{i:X}) * 3 << 2 >= {} AND NOT FALSE", i * 7),
            form => others[form - 2](i),
        })
        .collect()
}
