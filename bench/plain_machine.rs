//! The machine of the plain programs.

/// The allocation bits of a machine, with first fit.
pub struct Machine {
    taken: Vec<bool>,
}

impl Machine {
    pub fn new(dim: u32) -> Self {
        Machine {
            taken: vec![false; 1 << dim],
        }
    }

    pub fn take(&mut self, dim: u32) -> Option<usize> {
        let size = 1 << dim;
        let base = (0..self.taken.len())
            .step_by(size)
            .find(|&base| self.taken[base..base + size].iter().all(|taken| !taken))?;
        self.taken[base..base + size].fill(true);
        Some(base)
    }

    pub fn release(&mut self, base: usize, dim: u32) {
        self.taken[base..base + (1 << dim)].fill(false);
    }
}
