//! Lines as words and numbers, for scripts without quotes and without bad records.

/// The lines of a script as fields.
pub fn records(input: &[u8]) -> impl Iterator<Item = Vec<&[u8]>> {
    input
        .split(|byte| *byte == b'\n')
        .filter(|line| !line.is_empty())
        .map(|line| line.split(|byte| *byte == b',').collect())
}

/// The number that a field spells.
pub fn number(field: &[u8]) -> u64 {
    field.iter().fold(0, |value, digit| value * 10 + u64::from(digit - b'0'))
}

/// The pairs that some fields spell.
pub fn pairs(fields: &[&[u8]]) -> Vec<(u64, u64)> {
    fields.chunks_exact(2).map(|pair| (number(pair[0]), number(pair[1]))).collect()
}
