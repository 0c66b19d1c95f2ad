// Made from crates/cube_shape/src/falling.rt by checks/lib/erase.py. Change that file.
//! The law, over held blocks.

/// States the law of falling widths. If each held block has a dimension of at least `k`, no block
/// of dimension `k` fits only if every processor is held. So if no request is wider than the one
/// before it, a refused take shows that the machine is full. This is a law, and does nothing.
///
/// # Clauses of the proved source
///
/// - ensures full: `(n k : ℕ) (held : Holdings) → IsLawful n held → HoldsNoNarrower k held → k ≤ n → HasNoFit n k held → IsFull n held`
/// - ensures refusal: `(n k : ℕ) (held : Holdings) → ServesFalling n k held → k ≤ n → HasNoFit n k held → IsFull n held`
/// - ensures held: `(n count : ℕ) (held : Holdings) → HasStations count held → IsFull n held → (p : ℕ) → p < 2 ^ n → IsHeld held p`
/// - ensures lawful: `(n k : ℕ) (held : Holdings) → ServesFalling n k held → IsLawful n held`
pub fn falling_widths_never_fragment() {}
