// Made from crates/cube_shape/src/machine.rt by checks/lib/erase.py. Change that file.

/// Proves that there is at most one first fit, and none if nothing fits. It is the block with the
/// least base among all aligned blocks of its dimension that overlap no held block.
///
/// # Clauses of the proved source
///
/// - ensures alone: `(n k a b : ℕ) (held : Holdings) → IsFirstFit n k held a → IsFirstFit n k held b → a ≡ b`
/// - ensures fits: `(n k m : ℕ) (held : Holdings) → IsFirstFit n k held m → HasNoFit n k held → ⊥`
/// - ensures least: `(n m : ℕ) (held : Holdings) (r : Region) → IsFirstFit n r.dim held m → IsAligned n r → IsFree held r → m * 2 ^ r.dim ≤ r.base`
pub fn first_fit_is_the_least() {}
