use std::fmt::{self, Display, Formatter};

/// The mean age of what is pending, exactly: the sum of all ages is `quotient` times `count` plus `remainder`, and `remainder`
/// is below `count` unless `count` is 0. Ages are in milliseconds.
///
/// All three come from the proved core, so that two programs that show them show the same.
#[derive(Debug, Clone, Copy, PartialEq, Eq, Hash, Default)]
pub struct MeanAge {
    /// How many requests are pending.
    pub count: u32,
    pub quotient: u64,
    pub remainder: u64,
}

impl MeanAge {
    /// The mean in whole milliseconds, a half rounded up; 0 where nothing is pending.
    ///
    /// ```
    /// # use request_keeper::MeanAge;
    /// let mean = |remainder| MeanAge { count: 4, quotient: 250, remainder };
    /// assert_eq!([0, 1, 2, 3].map(|remainder| mean(remainder).rounded()), [250, 250, 251, 251]);
    /// assert_eq!(MeanAge::default().rounded(), 0);
    /// ```
    pub fn rounded(self) -> u64 {
        let half = u64::from(self.count.div_ceil(2));
        let up = self.count > 0 && self.remainder >= half;
        self.quotient.saturating_add(u64::from(up))
    }

    /// The sum of all ages, which may be more than 64 bits hold.
    pub fn sum(self) -> u128 {
        u128::from(self.quotient) * u128::from(self.count) + u128::from(self.remainder)
    }
}

/// As `3 pending, mean age 233 1/3 ms`.
impl Display for MeanAge {
    fn fmt(&self, out: &mut Formatter<'_>) -> fmt::Result {
        let Self {
            count,
            quotient,
            remainder,
        } = self;
        match (count, remainder) {
            (0, _) => write!(out, "nothing pending"),
            (_, 0) => write!(out, "{count} pending, mean age {quotient} ms"),
            _ => write!(
                out,
                "{count} pending, mean age {quotient} {remainder}/{count} ms"
            ),
        }
    }
}
