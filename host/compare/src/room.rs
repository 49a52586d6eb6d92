//! The room of a compact set, and room one short, exact and one more.

use model::compact_bound;

/// A circuit that is refused needs none.
pub fn compact_room(lines: u32, gates: &[u32]) -> usize {
    compact_bound(lines, gates).unwrap_or_default()
}

pub fn around(needed: usize) -> Vec<usize> {
    vec![needed.saturating_sub(1), needed, needed + 1]
}
