//! Stands for the crate fixedbitset: a length only, nothing here sets a bit.

#[derive(Clone, Default)]
pub struct FixedBitSet {
    length: usize,
}

impl FixedBitSet {
    pub fn len(&self) -> usize {
        self.length
    }

    pub fn is_empty(&self) -> bool {
        self.length == 0
    }
}
