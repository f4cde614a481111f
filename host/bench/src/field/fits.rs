//! What both sides ask of a field: at most 24 bits, all of them within the octets.

pub fn fits(octets: usize, at: usize, w: usize) -> bool {
    w <= 24 && at.checked_add(w).is_some_and(|end| end <= octets.saturating_mul(8))
}
