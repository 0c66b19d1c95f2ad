// Made from crates/cube_shape/src/neighbours.rt by checks/lib/erase.py. Change that file.

/// Returns the neighbour of a processor across a bit of its address: the processor whose address
/// differs in this bit only.
///
/// In an aligned block, the rank of a processor is its address minus the base. Flipping a bit of
/// the rank flips the same bit of the address, so neighbours in rank are neighbours in the machine.
///
/// # Clauses of the proved source
///
/// - requires: `bit < 64`
/// - ensures neighbours: `AreNeighboursIn bit processor result`
/// - ensures mutual: `AreNeighboursIn bit result processor`
/// - ensures differs: `bit_at result bit ≢ bit_at processor bit`
/// - ensures agrees: `(i : ℕ) → i ≢ bit → bit_at result i ≡ bit_at processor i`
/// - ensures in_region: `(k m from to : ℕ) → bit < k → from < 2 ^ k → processor ≡ m * 2 ^ k + from → AreNeighboursIn bit from to → result ≡ m * 2 ^ k + to`
pub fn neighbour(processor: u64, bit: u32) -> u64 {
    processor ^ 1 << bit
}
