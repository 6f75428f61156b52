/// The mean age of what is pending, exactly (F-7): the sum of all ages is `quotient` times `count` plus `remainder`.
#[derive(Debug, Clone, Copy, PartialEq, Eq, Default)]
pub struct MeanAge {
    pub number: u32,
    pub count: u32,
    pub quotient: u64,
    pub remainder: u64,
}

impl MeanAge {
    pub fn refused(number: u32) -> Self {
        Self {
            number,
            ..Self::default()
        }
    }

    /// The sum that it tells.
    pub fn sum(self) -> u128 {
        u128::from(self.quotient) * u128::from(self.count) + u128::from(self.remainder)
    }
}
